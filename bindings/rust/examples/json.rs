//! The strings of a JSON file, by the grammar and the lexer of `examples/`: `cargo run --example json GRAMMAR LEXER FILE`.

use lrkit::Parser;
use std::error::Error;
use std::{env, fs};

fn main() -> Result<(), Box<dyn Error>> {
    let mut texts = Vec::new();
    for path in env::args().skip(1) {
        texts.push(fs::read_to_string(path)?);
    }
    if texts.len() != 3 {
        return Err("usage: json GRAMMAR LEXER FILE".into());
    }
    let mut parser = Parser::with_lexer(&texts[0], &texts[1])?;
    let tree = parser.parse(&texts[2])?;
    for lexeme in tree.lexemes().filter(|it| it.text().starts_with('"')) {
        println!("{}: {}", lexeme.start(), lexeme.text());
    }
    Ok(())
}
