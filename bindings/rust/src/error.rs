//! Errors.

use std::error;
use std::fmt;

/// Why a call gives nothing.
#[derive(Clone, Debug, PartialEq, Eq)]
pub enum Error {
    /// The grammar's text gives no parser: the checker's report.
    Grammar(String),
    /// The lexer's text gives no lexer: what is wrong with it.
    Lexer(String),
    /// The Bison file can't be imported: why.
    File(String),
    /// The text has no lexeme at a place.
    Unlexed(Fault),
    /// The lexemes are no sentence.
    Syntax(Fault),
    /// A lexeme is of no token, or starts before the one in front of it.
    Lexemes,
    /// Memory is refused.
    Memory,
    /// Another refusal of the library, in its words.
    Other(String),
}

/// The first error of a text.
#[derive(Clone, Debug, PartialEq, Eq)]
pub struct Fault {
    /// The byte offset at which it begins.
    pub start: usize,
    /// The byte offset at which it ends.
    pub end: usize,
    /// The name of the token there; none where the lexer has none, and at the end of the text.
    pub token: Option<String>,
    /// The names of the tokens that may come there, without the end.
    pub expected: Vec<String>,
    /// Whether the text may end there.
    pub may_end: bool,
}

impl fmt::Display for Error {
    fn fmt(&self, f: &mut fmt::Formatter<'_>) -> fmt::Result {
        match self {
            Error::Grammar(text) | Error::Lexer(text) | Error::File(text) | Error::Other(text) => f.write_str(text),
            Error::Unlexed(fault) => write!(f, "no lexeme at byte {}", fault.start),
            Error::Syntax(fault) => write!(f, "unexpected {} at byte {}, expected {}", fault.token.as_deref().unwrap_or("end of input"), fault.start, fault.expected.join(", ")),
            Error::Lexemes => f.write_str("a lexeme is of no token, or starts before the one in front of it"),
            Error::Memory => f.write_str("out of memory"),
        }
    }
}

impl error::Error for Error {}
