"""Parsers and reports."""

from __future__ import annotations

import ctypes
import mmap
from array import array
from bisect import bisect_left
from dataclasses import dataclass
from typing import Any, Callable, Dict, List, NoReturn, Optional, Sequence, Tuple

from . import _library as lib
from ._errors import FileFault, GrammarFault, LexemeFault, LexerFault, LexingFault, LrkitError, SyntaxFault
from ._repairs import TextError, errors_of
from ._tree import Node, Nodes, Offsets

LIBRARY = lib.LIBRARY
# The array type of each size of an integer.
ARRAY_TYPES = {array(it).itemsize: it for it in "QLI"}
# From how many bytes on nodes get pages of their own, and how these are asked for, where a system has several ways.
LARGE_ROOM = 1 << 20
PAGES: Dict[str, int] = {"flags": mmap.MAP_PRIVATE | mmap.MAP_ANONYMOUS} if hasattr(mmap, "MAP_ANONYMOUS") else {}


@dataclass(frozen=True)
class Lexeme:
    """A token's name at the characters from `start` up to `start + length`."""

    token: str
    start: int
    length: int


@dataclass(frozen=True)
class Counts:
    """What a grammar and its table have. The end token and what the kit adds for the start are counted too."""

    tokens: int
    rules: int
    productions: int
    shift_reduce: int
    reduce_reduce: int


@dataclass(frozen=True)
class Report:
    """The checker's report: 0 where the conflicts are expected, 1 where there are others, 2 where there is no parser."""

    text: str
    outcome: int


def fail(status: int, message: str = "") -> NoReturn:
    """Raises the error of a status."""
    if status == lib.MEMORY:
        raise MemoryError("lrkit: out of memory")
    kinds = {lib.GRAMMAR: GrammarFault, lib.LEXER: LexerFault, lib.FILE: FileFault, lib.LEXEMES: LexemeFault}
    raise kinds.get(status, LrkitError)(message or lib.error_text(status))


def call_with_room(call: Callable[[Any, int], lib.Answer], room: int = 1024) -> Tuple[int, str]:
    """Calls until the room is large enough, and returns the status and the text."""
    while True:
        out = ctypes.create_string_buffer(room)
        answer = call(out, room)
        if answer.count <= room:
            return answer.status, out.raw[: answer.count].decode()
        room = answer.count


def report(grammar: str, path: str = "grammar.y", json: bool = False, states: bool = False) -> Report:
    """Returns the report on a grammar's text, with places at a path: for a person, with the closed states at the end if they are
    asked for, or as one JSON object (docs/report.schema.json)."""
    text, place, outcome = grammar.encode(), path.encode(), ctypes.c_uint32()
    form = lib.JSON_FORM if json else lib.STATES_FORM if states else lib.TEXT_FORM
    status, shown = call_with_room(lambda out, room: LIBRARY.lrkit_report(text, len(text), place, len(place), form, ctypes.byref(outcome), out, room), 1 << 14)
    if status != lib.OK:
        fail(status)
    return Report(shown, outcome.value)


def import_text(file: str) -> str:
    """Returns the text of a Bison or Yacc file in the kit's syntax."""
    text = file.encode()
    status, shown = call_with_room(lambda out, room: LIBRARY.lrkit_import(text, len(text), out, room), 2 * len(text) + 256)
    if status != lib.OK:
        fail(status, shown)
    return shown


def front_of(raw: Any, count: int) -> Any:
    """Lends the first lexemes of an array."""
    return (lib.RawLexeme * count).from_buffer(raw) if count else (lib.RawLexeme * 0)()


def column(raw: Any, name: str) -> memoryview:
    """Lends a field of all structures of an array, which has one or more: no object is made for each of them."""
    field, size = getattr(raw._type_, name), ctypes.sizeof(raw._type_)
    return memoryview(raw).cast("B").cast(ARRAY_TYPES[field.size])[field.offset // field.size :: size // field.size]


def put_column(raw: Any, name: str, values: List[int]) -> None:
    """Writes a field of all structures of an array, which has one or more. Raises LexemeFault where a value has no place in it."""
    room = column(raw, name)
    try:
        room[:] = array(room.format, values)  # type: ignore[call-overload]
    except OverflowError:
        fail(lib.LEXEMES)


def node_room(count: int) -> Any:
    """Makes room for nodes. A large one takes memory only where nodes are written."""
    kind, size = lib.RawNode * count, count * ctypes.sizeof(lib.RawNode)
    if size < LARGE_ROOM:
        return kind()
    try:
        return kind.from_buffer(mmap.mmap(-1, size, **PAGES))
    except OSError:
        fail(lib.MEMORY)


class Parser:
    """A parser of a grammar, with the lexer of a lexer's text if it was made with one. It belongs to one thread at a time."""

    def __init__(self, grammar: str, lexer: Optional[str] = None) -> None:
        self._handle = lib.Handle()
        self._names: Optional[Tuple[List[str], List[str]]] = None
        self._tokens: Dict[str, int] = {}
        text, rules = grammar.encode(), (lexer or "").encode()
        status, message = call_with_room(lambda out, room: LIBRARY.lrkit_parser_new(text, len(text), rules, len(rules), ctypes.byref(self._handle), out, room), 1 << 14)
        if status != lib.OK:
            self._handle.at = None
            fail(status, message)

    @classmethod
    def from_text(cls, grammar: str, lexer: Optional[str] = None) -> "Parser":
        """Makes a parser of the text of a grammar and, where `parse` is to take texts, of a lexer."""
        return cls(grammar, lexer)

    @classmethod
    def from_files(cls, grammar: str, lexer: Optional[str] = None) -> "Parser":
        """Makes a parser of the files at two paths."""
        texts = []
        for path in (grammar, lexer):
            if path is None:
                texts.append(None)
                continue
            with open(path, encoding="utf-8") as it:
                texts.append(it.read())
        return cls(texts[0] or "", texts[1])

    def close(self) -> None:
        """Frees the parser, which takes no call from then on."""
        if self._handle.at:
            LIBRARY.lrkit_parser_free(ctypes.byref(self._handle))
            self._handle.at = None

    def __enter__(self) -> "Parser":
        return self

    def __exit__(self, *_: object) -> None:
        self.close()

    def __del__(self) -> None:
        if getattr(self, "_handle", None) is not None:
            self.close()

    def _at(self) -> Any:
        """Lends the handle."""
        if not self._handle.at:
            raise LrkitError("the parser is closed")
        return ctypes.byref(self._handle)

    @property
    def counts(self) -> Counts:
        """What the grammar and its table have."""
        raw = lib.RawCounts()
        LIBRARY.lrkit_parser_counts(self._at(), ctypes.byref(raw))
        return Counts(raw.tokens, raw.rules, raw.productions, raw.shift_reduce, raw.reduce_reduce)

    def token(self, name: str) -> int:
        """Returns the number of the token of a name."""
        if name not in self._tokens:
            data, number = name.encode(), ctypes.c_uint32()
            answer = LIBRARY.lrkit_token(self._at(), data, len(data), ctypes.byref(number))
            if answer.status != lib.OK:
                raise KeyError(name)
            self._tokens[name] = number.value
        return self._tokens[name]

    @property
    def names(self) -> Tuple[List[str], List[str]]:
        """The names of the tokens by number, and those of the productions' rules. The end token, which is the last, has an empty one."""
        if self._names is None:
            counts = self.counts
            self._names = ([self._name(0, at) for at in range(counts.tokens)], [self._name(1, at) for at in range(counts.productions)])
        return self._names

    def _name(self, kind: int, number: int) -> str:
        """Asks for a name."""
        status, name = call_with_room(lambda out, room: LIBRARY.lrkit_name(self._at(), kind, number, out, room), 256)
        if status != lib.OK:
            fail(status)
        return name

    def parse(self, text: str) -> Node:
        """Returns the tree of a text. Raises LexingFault or SyntaxFault at its first error."""
        data = text.encode()
        place = lib.Place()

        def call(nodes: Any, room: int) -> lib.Answer:
            return LIBRARY.lrkit_parse_text(self._at(), data, len(data), nodes, room, ctypes.byref(place))

        return self._tree_of_call(call, text, data, place, lambda: self._raw_lexemes(data), 16 + 2 * len(data))

    def parse_lexemes(self, lexemes: Sequence[Lexeme], text: str = "") -> Node:
        """Returns the tree of lexemes, whose places are in the text. Raises SyntaxFault at their first error."""
        data = text.encode()
        place = lib.Place()
        raw = self._lexeme_array(lexemes, text, data)

        def call(nodes: Any, room: int) -> lib.Answer:
            return LIBRARY.lrkit_parse(self._at(), raw, len(raw), nodes, room, ctypes.byref(place))

        return self._tree_of_call(call, text, data, place, lambda: raw, 16 + 4 * len(raw))

    def errors(self, text: str, edits: int = 3) -> List[TextError]:
        """Returns all errors of a text, with repairs of at most `edits` insertions and deletions; none where it has a tree. With 0 there
        are no repairs, and only the first error."""
        data = text.encode()

        def call(marks: Any, room: int) -> lib.Answer:
            return LIBRARY.lrkit_parse_text_errors(self._at(), data, len(data), edits, marks, room)

        return self._errors_of_call(call, Offsets(text, data))

    def lexeme_errors(self, lexemes: Sequence[Lexeme], text: str = "", edits: int = 3) -> List[TextError]:
        """Returns all errors of lexemes, whose places are in the text, as `errors` does."""
        data = text.encode()
        raw = self._lexeme_array(lexemes, text, data)

        def call(marks: Any, room: int) -> lib.Answer:
            return LIBRARY.lrkit_parse_errors(self._at(), raw, len(raw), edits, marks, room)

        return self._errors_of_call(call, Offsets(text, data))

    def parse_json(self, text: str, path: str = "", edits: int = 3) -> str:
        """Returns the parse of a text as one JSON object: its tree, or all errors with their repairs (docs/parse.schema.json)."""
        data, place = text.encode(), path.encode()
        status, shown = call_with_room(
            lambda out, room: LIBRARY.lrkit_parse_text_json(self._at(), data, len(data), place, len(place), edits, out, room), 256 + 64 * len(data)
        )
        if status != lib.OK:
            fail(status)
        return shown

    def parse_lexemes_json(self, lexemes: Sequence[Lexeme], text: str = "", edits: int = 3) -> str:
        """Returns the parse of lexemes, whose places are in the text, as `parse_json` does. The path is empty."""
        data = text.encode()
        raw = self._lexeme_array(lexemes, text, data)
        status, shown = call_with_room(lambda out, room: LIBRARY.lrkit_parse_json(self._at(), raw, len(raw), data, len(data), edits, out, room), 256 + 64 * len(data))
        if status != lib.OK:
            fail(status)
        return shown

    def lex(self, text: str) -> List[Lexeme]:
        """Returns the lexemes of a text. Raises LexingFault where there is none."""
        data = text.encode()
        offsets, names = Offsets(text, data), self.names[0]
        return [
            Lexeme(names[it.token], offsets.char(it.start), offsets.char(it.start + it.length) - offsets.char(it.start))
            for it in self._raw_lexemes(data, offsets)
        ]

    def expected(self, lexemes: Sequence[Lexeme]) -> List[str]:
        """Returns the names of the tokens that may come behind lexemes; an empty name is that of the end."""
        found = self._expected(self._lexeme_array(lexemes, "", b""))
        if found is None:
            raise SyntaxFault("the lexemes have an error", 0, 0, [], "")
        return found

    def _lexeme_array(self, lexemes: Sequence[Lexeme], text: str, data: bytes) -> Any:
        """Makes the library's lexemes of these."""
        raw = (lib.RawLexeme * len(lexemes))()
        if not len(raw):
            return raw
        names, starts, lengths = [it.token for it in lexemes], [it.start for it in lexemes], [it.length for it in lexemes]
        offsets = Offsets(text, data)
        if not offsets.same:
            if min(starts) < 0 or min(lengths) < 0:
                fail(lib.LEXEMES)
            ends = [offsets.byte_offsets[start + length] for start, length in zip(starts, lengths)]
            starts = [offsets.byte_offsets[start] for start in starts]
            lengths = [end - start for start, end in zip(starts, ends)]
        for name in dict.fromkeys(names):
            self.token(name)
        put_column(raw, "token", list(map(self._tokens.__getitem__, names)))
        put_column(raw, "start", starts)
        put_column(raw, "length", lengths)
        return raw

    def _raw_lexemes(self, data: bytes, offsets: Optional[Offsets] = None) -> Any:
        """Returns the library's lexemes of a text: all, or with no offsets those up to the first error."""
        room, place = len(data) + 1, lib.Place()
        raw = (lib.RawLexeme * room)()
        answer = LIBRARY.lrkit_lex(self._at(), data, len(data), raw, room, ctypes.byref(place))
        if answer.status == lib.UNLEXED and offsets is not None:
            at = offsets.char(place.start)
            raise LexingFault(f"no lexeme at {at}", at, at, [])
        if answer.status not in (lib.OK, lib.UNLEXED):
            fail(answer.status)
        return front_of(raw, answer.count)

    def _expected(self, raw: Any) -> Optional[List[str]]:
        """Returns the names of the tokens that may come behind the library's lexemes; None where these have an error."""
        room = self.counts.tokens
        out = (ctypes.c_uint32 * room)()
        answer = LIBRARY.lrkit_expected(self._at(), raw, len(raw), out, room)
        if answer.status == lib.SYNTAX:
            return None
        if answer.status != lib.OK:
            fail(answer.status)
        names = self.names[0]
        return [names[number] for number in out[: answer.count]]

    def _tree_of_call(self, call: Callable[[Any, int], lib.Answer], text: str, data: bytes, place: lib.Place, lexemes: Callable[[], Any], room: int) -> Node:
        """Calls until the room is large enough, and returns the tree or raises the first error."""
        while True:
            nodes = node_room(room)
            answer = call(nodes, room)
            if answer.status != lib.ROOM:
                break
            room = answer.count
        if answer.status in (lib.UNLEXED, lib.SYNTAX):
            self._raise(answer.status, place, Offsets(text, data), lexemes())
        if answer.status != lib.OK:
            fail(answer.status)
        return Node(Nodes(nodes, answer.count, text, data, self.names), answer.count - 1)

    def _errors_of_call(self, call: Callable[[Any, int], lib.Answer], offsets: Offsets) -> List[TextError]:
        """Calls until the room is large enough, and returns the errors."""
        room = 256
        while True:
            marks = (lib.RawMark * room)()
            answer = call(marks, room)
            if answer.status != lib.ROOM:
                break
            room = answer.count
        if answer.status not in (lib.OK, lib.SYNTAX, lib.UNLEXED):
            fail(answer.status)
        return errors_of(marks[: answer.count], self.names[0], offsets)

    def _raise(self, status: int, place: lib.Place, offsets: Offsets, raw: Any) -> NoReturn:
        """Raises the error at a place."""
        before = bisect_left(column(raw, "start"), place.start) if len(raw) else 0
        expected = self._expected(front_of(raw, before)) or []
        start, end = offsets.char(place.start), offsets.char(place.end)
        if status == lib.UNLEXED:
            raise LexingFault(f"no lexeme at {start}", start, end, expected)
        token = self.names[0][place.token]
        shown = repr(token) if token else "end of input"
        raise SyntaxFault(f"unexpected {shown} at {start}, expected {', '.join(it or 'end of input' for it in expected)}", start, end, expected, token)
