"""Trees."""

from __future__ import annotations

import ctypes
import struct
from functools import cached_property
from itertools import accumulate, compress
from typing import Any, Iterator, List, Optional, Tuple

ROW = struct.Struct("@IINNN")
# For each byte whether a character begins with it.
FIRST_BYTES = bytes(it & 0xC0 != 0x80 for it in range(256))


class Offsets:
    """Byte offsets of a text in UTF-8 as offsets of characters, and back."""

    def __init__(self, text: str, data: bytes) -> None:
        self.same = len(text) == len(data)
        self._marks = b"" if self.same else data.translate(FIRST_BYTES) + b"\1"

    @cached_property
    def byte_offsets(self) -> List[int]:
        """The offset in bytes of each character, and of the end."""
        return list(compress(range(len(self._marks)), self._marks))

    @cached_property
    def char_offsets(self) -> List[int]:
        """The offset in characters of each byte, and of the end."""
        return list(accumulate(self._marks, initial=-1))[1:]

    def char(self, at: int) -> int:
        """Returns the character's offset for a byte's."""
        return at if self.same else self.char_offsets[at]


class Nodes:
    """The nodes of a tree as the library wrote them, which are looked at when they are asked for."""

    def __init__(self, raw: Any, count: int, text: str, data: bytes, names: Tuple[List[str], List[str]]) -> None:
        self.raw, self.count, self.text, self.names = raw, count, text, names
        self.data: Optional[bytes] = data
        self.rows: List[Tuple[int, int, int, int, int]] = []
        self.sizes: List[int] = []

    def row(self, at: int) -> Tuple[int, int, int, int, int]:
        """Returns the kind, the number, the first and the last offset and the count of children."""
        if self.data is not None:
            self.rows = list(ROW.iter_unpack(ctypes.string_at(self.raw, self.count * ROW.size)))
            offsets = Offsets(self.text, self.data)
            if not offsets.same:
                chars = offsets.char_offsets
                self.rows = [(kind, number, chars[start], chars[end], children) for kind, number, start, end, children in self.rows]
            self.raw = self.data = None
        return self.rows[at]

    def size(self, at: int) -> int:
        """Returns how many nodes one is, with those below it."""
        if not self.sizes:
            self.row(0)
            sizes: List[int] = []
            for at_row, row in enumerate(self.rows):
                end = at_row
                for _ in range(row[4]):
                    end -= sizes[end - 1]
                sizes.append(at_row - end + 1)
            self.sizes = sizes
        return self.sizes[at]


class Node:
    """A node of a tree: a lexeme, whose `name` is its token's, or a production, whose `name` is its rule's."""

    __slots__ = ("_nodes", "_at")

    def __init__(self, nodes: Nodes, at: int) -> None:
        self._nodes = nodes
        self._at = at

    @property
    def is_lexeme(self) -> bool:
        """Whether it is a lexeme."""
        return self._nodes.row(self._at)[0] == 0

    @property
    def number(self) -> int:
        """The token's number, or the production's."""
        return self._nodes.row(self._at)[1]

    @property
    def name(self) -> str:
        """The token's name, or that of the production's rule."""
        kind, number, *_ = self._nodes.row(self._at)
        return self._nodes.names[kind][number]

    @property
    def start(self) -> int:
        """The offset at which it begins."""
        return self._nodes.row(self._at)[2]

    @property
    def end(self) -> int:
        """The offset at which it ends."""
        return self._nodes.row(self._at)[3]

    @property
    def text(self) -> str:
        """The part of the text from `start` up to `end`; empty where the lexemes came without a text."""
        return self._nodes.text[self.start : self.end]

    @property
    def children(self) -> Tuple["Node", ...]:
        """Its children, from left to right."""
        nodes, end, found = self._nodes, self._at, []
        for _ in range(nodes.row(self._at)[4]):
            found.append(Node(nodes, end - 1))
            end -= nodes.size(end - 1)
        found.reverse()
        return tuple(found)

    def walk(self) -> Iterator["Node"]:
        """Goes over the nodes, each before its children."""
        left = [self]
        while left:
            node = left.pop()
            yield node
            left.extend(reversed(node.children))

    def lexemes(self) -> Iterator["Node"]:
        """Goes over the lexemes, from left to right."""
        first = self._at + 1 - self._nodes.size(self._at)
        return (Node(self._nodes, at) for at in range(first, self._at + 1) if self._nodes.row(at)[0] == 0)

    def sexp(self) -> str:
        """Writes the tree as one expression: a rule in brackets, a lexeme as its text."""
        parts: List[str] = []
        left: List[Optional[Node]] = [self]
        while left:
            node = left.pop()
            if node is None:
                parts.append(")")
            elif node.is_lexeme:
                parts.append(" " + (node.text or node.name))
            else:
                parts.append(f" ({node.name}")
                left.append(None)
                left.extend(reversed(node.children))
        return "".join(parts).strip()

    def __eq__(self, other: object) -> bool:
        return isinstance(other, Node) and self._nodes is other._nodes and self._at == other._at

    def __hash__(self) -> int:
        return hash((id(self._nodes), self._at))

    def __repr__(self) -> str:
        return f"Node({self.name!r}, {self.start}, {self.end})"
