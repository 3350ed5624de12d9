//! The library's calls, as in lrkit.h.

use std::os::raw::c_void;

/// What a call answers.
#[repr(C)]
#[derive(Clone, Copy)]
pub struct Answer {
    pub status: u32,
    pub count: usize,
}

/// A parser's handle.
#[repr(C)]
pub struct Handle {
    pub at: *mut c_void,
}

/// A lexeme.
#[repr(C)]
#[derive(Clone, Copy, Default)]
pub struct RawLexeme {
    pub token: u32,
    pub start: usize,
    pub length: usize,
}

/// A node.
#[repr(C)]
#[derive(Clone, Copy, Default)]
pub struct RawNode {
    pub kind: u32,
    pub number: u32,
    pub start: usize,
    pub end: usize,
    pub children: usize,
}

/// A place.
#[repr(C)]
#[derive(Clone, Copy, Default)]
pub struct Place {
    pub token: u32,
    pub start: usize,
    pub end: usize,
}

/// A mark.
#[repr(C)]
#[derive(Clone, Copy, Default)]
pub struct RawMark {
    pub kind: u32,
    pub token: u32,
    pub start: usize,
    pub end: usize,
}

/// Counts.
#[repr(C)]
#[derive(Clone, Copy, Debug, Default, PartialEq, Eq)]
pub struct Counts {
    /// Tokens; the end token is the last one.
    pub tokens: usize,
    /// Rules, with the one that the kit adds for the start.
    pub rules: usize,
    /// Productions, with those that the kit adds.
    pub productions: usize,
    /// Conflicts between a shift and a reduction that no precedence settles.
    pub shift_reduce: usize,
    /// Conflicts between reductions.
    pub reduce_reduce: usize,
}

pub const TEXT: u32 = 0;
pub const JSON: u32 = 1;
pub const STATES: u32 = 2;

pub const ERROR: u32 = 0;
pub const EXPECTED: u32 = 1;
pub const REPAIR: u32 = 2;
pub const INSERT: u32 = 3;
pub const DELETE: u32 = 4;

pub const OK: u32 = 0;
pub const MEMORY: u32 = 1;
pub const ROOM: u32 = 3;
pub const GRAMMAR: u32 = 4;
pub const LEXER: u32 = 5;
pub const FILE: u32 = 6;
pub const UNLEXED: u32 = 7;
pub const SYNTAX: u32 = 8;
pub const LEXEMES: u32 = 9;

extern "C" {
    pub fn lrkit_error_text(status: u32, out: *mut u8, room: usize) -> Answer;
    pub fn lrkit_report(text: *const u8, len: usize, path: *const u8, path_len: usize, form: u32, outcome: *mut u32, out: *mut u8, room: usize) -> Answer;
    pub fn lrkit_import(file: *const u8, len: usize, out: *mut u8, room: usize) -> Answer;
    pub fn lrkit_parser_new(grammar: *const u8, len: usize, lexer: *const u8, lexer_len: usize, parser: *mut Handle, message: *mut u8, room: usize) -> Answer;
    pub fn lrkit_parser_free(parser: *mut Handle);
    pub fn lrkit_parser_counts(parser: *mut Handle, counts: *mut Counts) -> Answer;
    pub fn lrkit_token(parser: *mut Handle, name: *const u8, len: usize, number: *mut u32) -> Answer;
    pub fn lrkit_name(parser: *mut Handle, kind: u32, number: u32, out: *mut u8, room: usize) -> Answer;
    pub fn lrkit_lex(parser: *mut Handle, text: *const u8, len: usize, lexemes: *mut RawLexeme, room: usize, place: *mut Place) -> Answer;
    pub fn lrkit_parse(parser: *mut Handle, lexemes: *const RawLexeme, len: usize, nodes: *mut RawNode, room: usize, place: *mut Place) -> Answer;
    pub fn lrkit_parse_text(parser: *mut Handle, text: *const u8, len: usize, nodes: *mut RawNode, room: usize, place: *mut Place) -> Answer;
    pub fn lrkit_expected(parser: *mut Handle, lexemes: *const RawLexeme, len: usize, tokens: *mut u32, room: usize) -> Answer;
    pub fn lrkit_parse_errors(parser: *mut Handle, lexemes: *const RawLexeme, len: usize, edits: usize, marks: *mut RawMark, room: usize) -> Answer;
    pub fn lrkit_parse_text_errors(parser: *mut Handle, text: *const u8, len: usize, edits: usize, marks: *mut RawMark, room: usize) -> Answer;
    pub fn lrkit_parse_json(parser: *mut Handle, lexemes: *const RawLexeme, len: usize, text: *const u8, text_len: usize, edits: usize, out: *mut u8, room: usize) -> Answer;
    pub fn lrkit_parse_text_json(parser: *mut Handle, text: *const u8, len: usize, path: *const u8, path_len: usize, edits: usize, out: *mut u8, room: usize) -> Answer;
}
