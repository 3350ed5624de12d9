"""All errors of a text, with their repairs."""

from __future__ import annotations

from dataclasses import dataclass, field
from typing import Any, Iterable, List, Optional

from . import _library as lib
from ._tree import Offsets

EDITS = {lib.INSERT: "insert", lib.DELETE: "delete", lib.SHIFT: "shift"}


@dataclass(frozen=True)
class Step:
    """A step of a repair. `edit` is `insert`, `delete` or `shift`; what is deleted or shifted is from `start` up to `end`."""

    edit: str
    token: str
    start: Optional[int] = None
    end: Optional[int] = None

    def __str__(self) -> str:
        return f"{self.edit} {self.token}"


@dataclass(frozen=True)
class TextError:
    """An error of a text. `token` is empty at the end of the text, and None where the lexer has none. `expected` are the tokens that
    may come there; an empty name is that of the end. Repairs with the fewest edits come first; the parse goes on by the first one."""

    start: int
    end: int
    token: Optional[str]
    expected: List[str] = field(default_factory=list)
    repairs: List[List[Step]] = field(default_factory=list)


def errors_of(marks: Iterable[Any], names: List[str], offsets: Offsets) -> List[TextError]:
    """Makes errors of the library's marks."""
    errors: List[TextError] = []
    for mark in marks:
        if mark.kind == lib.ERROR:
            token = names[mark.token] if mark.token < len(names) else None
            errors.append(TextError(offsets.char(mark.start), offsets.char(mark.end), token))
        elif mark.kind == lib.EXPECTED:
            errors[-1].expected.append(names[mark.token])
        elif mark.kind == lib.REPAIR:
            errors[-1].repairs.append([])
        elif mark.kind == lib.INSERT:
            errors[-1].repairs[-1].append(Step("insert", names[mark.token]))
        else:
            errors[-1].repairs[-1].append(Step(EDITS[mark.kind], names[mark.token], offsets.char(mark.start), offsets.char(mark.end)))
    return errors
