"""The library's calls, as in lrkit.h."""

from __future__ import annotations

import ctypes
import os
from ctypes import POINTER, Structure, c_size_t, c_uint32, c_void_p

ERROR, EXPECTED, REPAIR, INSERT, DELETE, SHIFT = range(6)
OK, MEMORY, NOT_UTF8, ROOM, GRAMMAR, LEXER, FILE, UNLEXED, SYNTAX, LEXEMES, UNKNOWN, NO_LEXER = range(12)
TEXT_FORM, JSON_FORM, STATES_FORM = range(3)


class Answer(Structure):
    _fields_ = [("status", c_uint32), ("count", c_size_t)]


class Handle(Structure):
    _fields_ = [("at", c_void_p)]


class RawLexeme(Structure):
    _fields_ = [("token", c_uint32), ("start", c_size_t), ("length", c_size_t)]


class RawNode(Structure):
    _fields_ = [("kind", c_uint32), ("number", c_uint32), ("start", c_size_t), ("end", c_size_t), ("children", c_size_t)]


class Place(Structure):
    _fields_ = [("token", c_uint32), ("start", c_size_t), ("end", c_size_t)]


class RawMark(Structure):
    _fields_ = [("kind", c_uint32), ("token", c_uint32), ("start", c_size_t), ("end", c_size_t)]


class RawCounts(Structure):
    _fields_ = [(name, c_size_t) for name in ("tokens", "rules", "productions", "shift_reduce", "reduce_reduce")]


TEXT = [ctypes.c_char_p, c_size_t]
OUT = [c_void_p, c_size_t]
CALLS = {
    "lrkit_error_text": [c_uint32, *OUT],
    "lrkit_report": [*TEXT, *TEXT, c_uint32, POINTER(c_uint32), *OUT],
    "lrkit_import": [*TEXT, *OUT],
    "lrkit_parser_new": [*TEXT, *TEXT, POINTER(Handle), *OUT],
    "lrkit_parser_counts": [POINTER(Handle), POINTER(RawCounts)],
    "lrkit_token": [POINTER(Handle), *TEXT, POINTER(c_uint32)],
    "lrkit_name": [POINTER(Handle), c_uint32, c_uint32, *OUT],
    "lrkit_lex": [POINTER(Handle), *TEXT, c_void_p, c_size_t, POINTER(Place)],
    "lrkit_parse": [POINTER(Handle), c_void_p, c_size_t, c_void_p, c_size_t, POINTER(Place)],
    "lrkit_parse_text": [POINTER(Handle), *TEXT, c_void_p, c_size_t, POINTER(Place)],
    "lrkit_expected": [POINTER(Handle), c_void_p, c_size_t, c_void_p, c_size_t],
    "lrkit_parse_errors": [POINTER(Handle), c_void_p, c_size_t, c_size_t, c_void_p, c_size_t],
    "lrkit_parse_text_errors": [POINTER(Handle), *TEXT, c_size_t, c_void_p, c_size_t],
    "lrkit_parse_json": [POINTER(Handle), c_void_p, c_size_t, *TEXT, c_size_t, *OUT],
    "lrkit_parse_text_json": [POINTER(Handle), *TEXT, *TEXT, c_size_t, *OUT],
}


def load() -> ctypes.CDLL:
    """Loads the library, and declares its calls."""
    named = os.environ.get("LRKIT_LIBRARY")
    beside = os.path.join(os.path.dirname(os.path.abspath(__file__)), "liblrkit.so")
    found = ctypes.CDLL(named or (beside if os.path.exists(beside) else "liblrkit.so"))
    for name, kinds in CALLS.items():
        call = getattr(found, name)
        call.argtypes, call.restype = kinds, Answer
    found.lrkit_parser_free.argtypes, found.lrkit_parser_free.restype = [POINTER(Handle)], None
    return found


LIBRARY = load()


def error_text(status: int) -> str:
    """Returns the text of a status."""
    out = ctypes.create_string_buffer(256)
    answer = LIBRARY.lrkit_error_text(status, out, 256)
    return out.raw[: answer.count].decode() if answer.status == OK else f"status {status}"
