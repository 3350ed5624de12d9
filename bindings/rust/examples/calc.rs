//! Values of lines, by a parser.

use lrkit::{Error, Node, Parser};

const GRAMMAR: &str = "%token NUM\n%left '+' '-'\n%left '*' '/'\n%%\nE: E '+' E | E '-' E | E '*' E | E '/' E | '(' E ')' | NUM;\n";
const LEXER: &str = "%%\n[0-9]+ \"NUM\"\n\\+ \"+\"\n- \"-\"\n\\* \"*\"\n/ \"/\"\n\\( \"(\"\n\\) \")\"\n[ \\t\\n]+ ;\n";

fn value(node: Node<'_>) -> f64 {
    let parts: Vec<_> = node.children().collect();
    match parts.len() {
        0 => node.text().parse().unwrap_or(0.0),
        1 => value(parts[0]),
        _ if parts[0].name() == "(" => value(parts[1]),
        _ => {
            let (left, right) = (value(parts[0]), value(parts[2]));
            match parts[1].name() {
                "+" => left + right,
                "-" => left - right,
                "*" => left * right,
                _ => left / right,
            }
        }
    }
}

fn main() -> Result<(), Error> {
    let mut parser = Parser::with_lexer(GRAMMAR, LEXER)?;
    for line in ["1 + 2 * 3", "(1 + 2) * 3", "2 * (3 +"] {
        match parser.parse(line) {
            Ok(tree) => println!("{line}: {}", value(tree.root())),
            Err(error) => println!("{line}: {error}"),
        }
    }
    Ok(())
}
