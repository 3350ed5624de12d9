//! All errors of a text, with their repairs.

use crate::calls::{self, RawMark};
use std::fmt;
use std::rc::Rc;

/// An error of a text.
#[derive(Clone, Debug, PartialEq, Eq)]
pub struct TextError {
    /// The byte offset at which it begins.
    pub start: usize,
    /// The byte offset at which it ends.
    pub end: usize,
    /// The name of the token there: empty at the end of the text, and none where the lexer has none.
    pub token: Option<Rc<str>>,
    /// The names of the tokens that may come there; an empty one is that of the end.
    pub expected: Vec<Rc<str>>,
    /// The repairs, those with the fewest edits first. The parse goes on by the first one.
    pub repairs: Vec<Vec<Step>>,
}

/// A step of a repair.
#[derive(Clone, Debug, PartialEq, Eq)]
pub enum Step {
    /// Inserts a lexeme of the token in front of the next lexeme.
    Insert {
        /// The token's name.
        token: Rc<str>,
    },
    /// Deletes the next lexeme.
    Delete {
        /// The token's name.
        token: Rc<str>,
        /// The byte offset at which the lexeme begins.
        start: usize,
        /// The byte offset at which it ends.
        end: usize,
    },
    /// Keeps the next lexeme.
    Shift {
        /// The token's name.
        token: Rc<str>,
        /// The byte offset at which the lexeme begins.
        start: usize,
        /// The byte offset at which it ends.
        end: usize,
    },
}

impl fmt::Display for Step {
    fn fmt(&self, f: &mut fmt::Formatter<'_>) -> fmt::Result {
        match self {
            Step::Insert { token } => write!(f, "insert {token}"),
            Step::Delete { token, .. } => write!(f, "delete {token}"),
            Step::Shift { token, .. } => write!(f, "shift {token}"),
        }
    }
}

/// Makes errors of the library's marks.
pub(crate) fn errors_of(marks: &[RawMark], mut name: impl FnMut(u32) -> Rc<str>) -> Vec<TextError> {
    let mut errors: Vec<TextError> = Vec::new();
    for mark in marks {
        let (start, end) = (mark.start, mark.end);
        if mark.kind == calls::ERROR {
            let token = if mark.token == u32::MAX { None } else { Some(name(mark.token)) };
            errors.push(TextError { start, end, token, expected: Vec::new(), repairs: Vec::new() });
            continue;
        }
        // Each other mark is behind that of its error, and a step behind the beginning of its repair.
        let Some(last) = errors.last_mut() else { continue };
        if mark.kind == calls::REPAIR {
            last.repairs.push(Vec::new());
            continue;
        }
        let token = name(mark.token);
        if mark.kind == calls::EXPECTED {
            last.expected.push(token);
            continue;
        }
        let step = match mark.kind {
            calls::INSERT => Step::Insert { token },
            calls::DELETE => Step::Delete { token, start, end },
            _ => Step::Shift { token, start, end },
        };
        if let Some(repair) = last.repairs.last_mut() {
            repair.push(step);
        }
    }
    errors
}
