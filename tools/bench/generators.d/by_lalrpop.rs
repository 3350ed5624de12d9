#[macro_use]
extern crate lalrpop_util;

mod tree;
lalrpop_mod!(#[allow(warnings)] texts);
lalrpop_mod!(#[allow(warnings)] lexemes);

use tree::{count, Json, Token};

#[no_mangle]
#[inline(never)]
pub fn bench_text<'t>(parser: &texts::JsonParser, text: &'t str) -> Json<'t> {
    parser.parse(text).unwrap()
}

#[no_mangle]
#[inline(never)]
pub fn bench_lexemes<'t>(parser: &lexemes::JsonParser, text: &'t str, lexemes: &[(usize, Token, usize)]) -> Json<'t> {
    parser.parse(text, lexemes.iter().map(|it| Ok::<_, ()>(*it))).unwrap()
}

fn lex(text: &str) -> Vec<(usize, Token, usize)> {
    let bytes = text.as_bytes();
    let (mut found, mut at) = (Vec::new(), 0);
    while at < bytes.len() {
        let rest = |len: usize| at + len;
        let (token, end) = match bytes[at] {
            b'{' => (Token::Open, rest(1)),
            b'}' => (Token::Close, rest(1)),
            b'[' => (Token::Begin, rest(1)),
            b']' => (Token::End, rest(1)),
            b':' => (Token::Colon, rest(1)),
            b',' => (Token::Comma, rest(1)),
            b't' => (Token::True, rest(4)),
            b'f' => (Token::False, rest(5)),
            b'n' => (Token::Null, rest(4)),
            b'"' => {
                let mut end = at + 1;
                while bytes[end] != b'"' {
                    end += if bytes[end] == b'\\' { 2 } else { 1 };
                }
                (Token::Text, end + 1)
            }
            b' ' | b'\n' | b'\t' | b'\r' => {
                at += 1;
                continue;
            }
            _ => (Token::Number, at + bytes[at..].iter().take_while(|it| b"+-.eE0123456789".contains(it)).count()),
        };
        found.push((at, token, end));
        at = end;
    }
    found
}

fn main() {
    let text = std::fs::read_to_string(std::env::args().nth(1).unwrap()).unwrap();
    let lexemes = lex(&text);
    let (whole, parts) = (texts::JsonParser::new(), lexemes::JsonParser::new());
    println!("{} lexemes, {} and {} values", lexemes.len(), count(&bench_text(&whole, &text)), count(&bench_lexemes(&parts, &text, &lexemes)));
}
