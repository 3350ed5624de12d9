"""Errors."""

from __future__ import annotations

from typing import List


class LrkitError(Exception):
    """What any call may raise, but MemoryError."""


class GrammarFault(LrkitError):
    """The grammar's text gives no parser. The message is the checker's report."""


class LexerFault(LrkitError):
    """The lexer's text gives no lexer."""


class FileFault(LrkitError):
    """The Bison file can't be imported."""


class LexemeFault(LrkitError):
    """A lexeme is of no token, starts before the one in front of it, or has a place that no text has."""


class ParseFault(LrkitError):
    """The text has no tree: its first error is from `start` up to `end`, and `expected` are the tokens that may come there."""

    def __init__(self, message: str, start: int, end: int, expected: List[str]) -> None:
        super().__init__(message)
        self.start = start
        self.end = end
        self.expected = expected


class LexingFault(ParseFault):
    """No lexeme is at `start`."""


class SyntaxFault(ParseFault):
    """`token` can't come at `start`; it is empty at the end of the text."""

    def __init__(self, message: str, start: int, end: int, expected: List[str], token: str) -> None:
        super().__init__(message, start, end, expected)
        self.token = token
