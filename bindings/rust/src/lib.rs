//! LR parsers from Yacc grammars, with a checked table.
//!
//! ```
//! let grammar = "%token NUM\n%left '+'\n%%\nE: E '+' E | NUM;\n";
//! let lexer = "%%\n[0-9]+ \"NUM\"\n\\+ \"+\"\n[ \\n]+ ;\n";
//! let mut parser = lrkit::Parser::with_lexer(grammar, lexer)?;
//! assert_eq!(parser.parse("1 + 2")?.sexp(), "(E (E 1) + (E 2))");
//! # Ok::<(), lrkit::Error>(())
//! ```
//!
//! Offsets count bytes. The crate links `liblrkit.a`, of the folder that the variable `LRKIT_FOLDER` names when it is built.

mod calls;
mod error;
mod repairs;
mod tree;

pub use calls::Counts;
pub use error::{Error, Fault};
pub use repairs::{Step, TextError};
pub use tree::{Node, Tree};

use calls::{Answer, Handle, Place, RawLexeme, RawMark, RawNode};
use std::collections::HashMap;
use std::ptr;
use std::rc::Rc;

/// A lexeme: a token's number, and its bytes in the text.
#[derive(Clone, Copy, Debug, PartialEq, Eq)]
pub struct Lexeme {
    /// The token's number.
    pub token: u32,
    /// The byte offset at which it begins.
    pub start: usize,
    /// How many bytes it has.
    pub length: usize,
}

/// The checker's report on a grammar's text.
#[derive(Clone, Debug, PartialEq, Eq)]
pub struct Report {
    /// The text.
    pub text: String,
    /// 0 where the conflicts are expected, 1 where there are others, 2 where there is no parser.
    pub outcome: u32,
}

/// A parser of a grammar, with a lexer if it was made with one. It belongs to one thread.
#[derive(Debug)]
pub struct Parser {
    handle: Handle,
    names: HashMap<(u32, u32), Rc<str>>,
}

impl std::fmt::Debug for Handle {
    fn fmt(&self, f: &mut std::fmt::Formatter<'_>) -> std::fmt::Result {
        f.write_str("Handle")
    }
}

/// Calls until the room is large enough, and returns the status and the text.
fn call_with_room(first: usize, mut call: impl FnMut(*mut u8, usize) -> Answer) -> (u32, String) {
    let mut out = vec![0; first];
    loop {
        let answer = call(out.as_mut_ptr(), out.len());
        if answer.count <= out.len() {
            out.truncate(answer.count);
            return (answer.status, String::from_utf8_lossy(&out).into_owned());
        }
        out.resize(answer.count, 0);
    }
}

/// Returns the error of a status.
fn error_of(status: u32, message: String) -> Error {
    match status {
        calls::MEMORY => Error::Memory,
        calls::GRAMMAR => Error::Grammar(message),
        calls::LEXER => Error::Lexer(message),
        calls::FILE => Error::File(message),
        calls::LEXEMES => Error::Lexemes,
        // The out pointer has as many bytes as is said.
        _ => Error::Other(call_with_room(64, |out, room| unsafe { calls::lrkit_error_text(status, out, room) }).1),
    }
}

/// Returns a result for a status.
fn text_or_error(status: u32, text: String) -> Result<String, Error> {
    if status == calls::OK {
        return Ok(text);
    }
    Err(error_of(status, text))
}

/// Returns the report on a grammar's text in a form.
fn report_in(form: u32, grammar: &str, path: &str) -> Result<Report, Error> {
    let mut outcome = 0;
    let (status, text) = call_with_room(1 << 14, |out, room| unsafe {
        calls::lrkit_report(grammar.as_ptr(), grammar.len(), path.as_ptr(), path.len(), form, &mut outcome, out, room)
    });
    Ok(Report { text: text_or_error(status, text)?, outcome })
}

/// Returns the report on a grammar's text, with places at a path.
pub fn report(grammar: &str, path: &str) -> Result<Report, Error> {
    report_in(calls::TEXT, grammar, path)
}

/// Returns the report on a grammar's text as one JSON object, which `docs/report.schema.json` describes.
pub fn report_json(grammar: &str, path: &str) -> Result<Report, Error> {
    report_in(calls::JSON, grammar, path)
}

/// Returns the report on a grammar's text with the closed states at its end: items, lookaheads, edges.
pub fn report_states(grammar: &str, path: &str) -> Result<Report, Error> {
    report_in(calls::STATES, grammar, path)
}

/// Returns the text of a Bison or Yacc file in the kit's syntax.
pub fn import(file: &str) -> Result<String, Error> {
    let (status, text) = call_with_room(2 * file.len() + 256, |out, room| unsafe { calls::lrkit_import(file.as_ptr(), file.len(), out, room) });
    text_or_error(status, text)
}

impl Parser {
    /// Makes a parser of a grammar's text, which parses lexemes.
    pub fn new(grammar: &str) -> Result<Parser, Error> {
        Parser::with_lexer(grammar, "")
    }

    /// Makes a parser of the texts of a grammar and a lexer.
    pub fn with_lexer(grammar: &str, lexer: &str) -> Result<Parser, Error> {
        let mut handle = Handle { at: ptr::null_mut() };
        let (status, message) = call_with_room(1 << 14, |out, room| unsafe {
            calls::lrkit_parser_new(grammar.as_ptr(), grammar.len(), lexer.as_ptr(), lexer.len(), &mut handle, out, room)
        });
        text_or_error(status, message)?;
        Ok(Parser { handle, names: HashMap::new() })
    }

    /// Returns what the grammar and its table have.
    pub fn counts(&mut self) -> Counts {
        let mut counts = Counts::default();
        unsafe { calls::lrkit_parser_counts(&mut self.handle, &mut counts) };
        counts
    }

    /// Returns the number of the token of a name, if there is one.
    pub fn token(&mut self, name: &str) -> Option<u32> {
        let mut number = 0;
        let answer = unsafe { calls::lrkit_token(&mut self.handle, name.as_ptr(), name.len(), &mut number) };
        if answer.status == calls::OK {
            Some(number)
        } else {
            None
        }
    }

    /// Returns the name of a token (0) or of a production's rule (1); empty for the end token.
    fn name(&mut self, kind: u32, number: u32) -> Rc<str> {
        let handle = &mut self.handle;
        self.names
            .entry((kind, number))
            .or_insert_with(|| Rc::from(call_with_room(64, |out, room| unsafe { calls::lrkit_name(handle, kind, number, out, room) }).1))
            .clone()
    }

    /// Returns the name of a token's number; empty for the end token.
    pub fn token_name(&mut self, token: u32) -> Rc<str> {
        self.name(0, token)
    }

    /// Returns the lexemes of a text.
    pub fn lex(&mut self, text: &str) -> Result<Vec<Lexeme>, Error> {
        let (status, raws, place) = self.raw_lexemes_of(text)?;
        if status == calls::UNLEXED {
            return Err(Error::Unlexed(self.fault(place, &raws)?));
        }
        Ok(raws.iter().map(|it| Lexeme { token: it.token, start: it.start, length: it.length }).collect())
    }

    /// Returns the tree of a text.
    pub fn parse(&mut self, text: &str) -> Result<Tree, Error> {
        let handle = &mut self.handle;
        let (status, nodes, place) = nodes_of_call(16 + 2 * text.len(), |nodes, room, place| unsafe {
            calls::lrkit_parse_text(handle, text.as_ptr(), text.len(), nodes, room, place)
        });
        if status == calls::OK {
            return Ok(self.tree(text, nodes));
        }
        if status != calls::UNLEXED && status != calls::SYNTAX {
            return Err(error_of(status, String::new()));
        }
        let (_, raws, _) = self.raw_lexemes_of(text)?;
        let fault = self.fault(place, &raws)?;
        Err(if status == calls::UNLEXED { Error::Unlexed(fault) } else { Error::Syntax(fault) })
    }

    /// Returns the tree of lexemes, whose places are in the text.
    pub fn parse_lexemes(&mut self, lexemes: &[Lexeme], text: &str) -> Result<Tree, Error> {
        let raws = raw_lexemes(lexemes);
        let handle = &mut self.handle;
        let (status, nodes, place) = nodes_of_call(16 + 4 * raws.len(), |nodes, room, place| unsafe {
            calls::lrkit_parse(handle, raws.as_ptr(), raws.len(), nodes, room, place)
        });
        match status {
            calls::OK => Ok(self.tree(text, nodes)),
            calls::SYNTAX => Err(Error::Syntax(self.fault(place, &raws)?)),
            _ => Err(error_of(status, String::new())),
        }
    }

    /// Returns the numbers of the tokens that may come behind lexemes; none where these have an error.
    pub fn expected(&mut self, lexemes: &[Lexeme]) -> Result<Option<Vec<u32>>, Error> {
        self.expected_raw(&raw_lexemes(lexemes))
    }

    /// Returns all errors of a text, with repairs of at most `edits` insertions and deletions; none where it has a tree. With 0 there
    /// are no repairs, and only the first error.
    pub fn errors(&mut self, text: &str, edits: usize) -> Result<Vec<TextError>, Error> {
        let handle = &mut self.handle;
        let (status, marks) = marks_of_call(|marks, room| unsafe { calls::lrkit_parse_text_errors(handle, text.as_ptr(), text.len(), edits, marks, room) });
        self.errors_of(status, &marks)
    }

    /// Returns all errors of lexemes, as `errors` does.
    pub fn lexeme_errors(&mut self, lexemes: &[Lexeme], edits: usize) -> Result<Vec<TextError>, Error> {
        let raws = raw_lexemes(lexemes);
        let handle = &mut self.handle;
        let (status, marks) = marks_of_call(|marks, room| unsafe { calls::lrkit_parse_errors(handle, raws.as_ptr(), raws.len(), edits, marks, room) });
        self.errors_of(status, &marks)
    }

    fn errors_of(&mut self, status: u32, marks: &[RawMark]) -> Result<Vec<TextError>, Error> {
        match status {
            calls::OK | calls::SYNTAX | calls::UNLEXED => Ok(repairs::errors_of(marks, |token| self.name(0, token))),
            _ => Err(error_of(status, String::new())),
        }
    }

    /// Returns the parse of a text as one JSON object with this path: its tree, or all errors with their repairs.
    /// `docs/parse.schema.json` describes it.
    pub fn parse_json(&mut self, text: &str, path: &str, edits: usize) -> Result<String, Error> {
        let handle = &mut self.handle;
        let (status, object) = call_with_room(256 + 64 * text.len(), |out, room| unsafe {
            calls::lrkit_parse_text_json(handle, text.as_ptr(), text.len(), path.as_ptr(), path.len(), edits, out, room)
        });
        text_or_error(status, object)
    }

    /// Returns the parse of lexemes, whose places are in the text, as `parse_json` does. The path is empty.
    pub fn parse_lexemes_json(&mut self, lexemes: &[Lexeme], text: &str, edits: usize) -> Result<String, Error> {
        let raws = raw_lexemes(lexemes);
        let handle = &mut self.handle;
        let (status, object) = call_with_room(256 + 64 * text.len(), |out, room| unsafe {
            calls::lrkit_parse_json(handle, raws.as_ptr(), raws.len(), text.as_ptr(), text.len(), edits, out, room)
        });
        text_or_error(status, object)
    }

    fn expected_raw(&mut self, raws: &[RawLexeme]) -> Result<Option<Vec<u32>>, Error> {
        let mut tokens = vec![0; self.counts().tokens];
        let answer = unsafe { calls::lrkit_expected(&mut self.handle, raws.as_ptr(), raws.len(), tokens.as_mut_ptr(), tokens.len()) };
        match answer.status {
            calls::OK => {
                tokens.truncate(answer.count);
                Ok(Some(tokens))
            }
            calls::SYNTAX => Ok(None),
            status => Err(error_of(status, String::new())),
        }
    }

    /// Lexes a text: the status, the lexemes up to the first error, and its place.
    fn raw_lexemes_of(&mut self, text: &str) -> Result<(u32, Vec<RawLexeme>, Place), Error> {
        let mut raws = vec![RawLexeme::default(); text.len() + 1];
        let mut place = Place::default();
        let answer = unsafe { calls::lrkit_lex(&mut self.handle, text.as_ptr(), text.len(), raws.as_mut_ptr(), raws.len(), &mut place) };
        if answer.status != calls::OK && answer.status != calls::UNLEXED {
            return Err(error_of(answer.status, String::new()));
        }
        raws.truncate(answer.count);
        Ok((answer.status, raws, place))
    }

    /// Returns the error at a place behind some of these lexemes.
    fn fault(&mut self, place: Place, raws: &[RawLexeme]) -> Result<Fault, Error> {
        let before = raws.iter().take_while(|it| it.start < place.start).count();
        let numbers = self.expected_raw(&raws[..before])?.unwrap_or_default();
        let end = self.counts().tokens as u32 - 1;
        let expected = numbers.iter().filter(|it| **it != end).map(|it| self.name(0, *it).to_string()).collect();
        let token = if place.token < end { Some(self.name(0, place.token).to_string()) } else { None };
        Ok(Fault { start: place.start, end: place.end, token, expected, may_end: numbers.contains(&end) })
    }

    /// Makes a tree of the library's nodes.
    fn tree(&mut self, text: &str, nodes: Vec<RawNode>) -> Tree {
        let raws = nodes.into_iter().map(|raw| (tree::Raw::from(raw), self.name(raw.kind, raw.number))).collect();
        Tree::of_nodes(Rc::from(text), raws)
    }
}

impl Drop for Parser {
    fn drop(&mut self) {
        // The handle was made with status OK, and is freed here alone.
        unsafe { calls::lrkit_parser_free(&mut self.handle) }
    }
}

/// Makes the library's lexemes of these.
fn raw_lexemes(lexemes: &[Lexeme]) -> Vec<RawLexeme> {
    lexemes.iter().map(|it| RawLexeme { token: it.token, start: it.start, length: it.length }).collect()
}

/// Parses until the room is large enough.
fn nodes_of_call(first: usize, mut call: impl FnMut(*mut RawNode, usize, *mut Place) -> Answer) -> (u32, Vec<RawNode>, Place) {
    let mut nodes = vec![RawNode::default(); first];
    let mut place = Place::default();
    loop {
        let answer = call(nodes.as_mut_ptr(), nodes.len(), &mut place);
        if answer.status != calls::ROOM {
            nodes.truncate(answer.count);
            return (answer.status, nodes, place);
        }
        nodes.resize(answer.count, RawNode::default());
    }
}

/// Finds errors until the room is large enough.
fn marks_of_call(mut call: impl FnMut(*mut RawMark, usize) -> Answer) -> (u32, Vec<RawMark>) {
    let mut marks = vec![RawMark::default(); 256];
    loop {
        let answer = call(marks.as_mut_ptr(), marks.len());
        if answer.status != calls::ROOM {
            marks.truncate(answer.count);
            return (answer.status, marks);
        }
        marks.resize(answer.count, RawMark::default());
    }
}
