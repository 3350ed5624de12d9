//! The cases of bindings/cases.

use lrkit::{Error, Node, Parser, Step, TextError, Tree};
use std::collections::HashMap;
use std::{fs, thread};

type Case = HashMap<char, String>;

/// Reads the cases: what each mark's lines have, with an LF between them.
fn cases() -> Vec<Case> {
    let text = fs::read_to_string(concat!(env!("CARGO_MANIFEST_DIR"), "/../cases/cases.txt")).unwrap();
    let mut found = Vec::new();
    for block in text.split("\n\n").filter(|it| !it.is_empty()) {
        let mut case = Case::new();
        for line in block.split('\n') {
            let (mark, rest) = (line.chars().next().unwrap(), &line[1..]);
            case.entry(mark)
                .and_modify(|so_far| {
                    so_far.push('\n');
                    so_far.push_str(rest);
                })
                .or_insert_with(|| rest.to_string());
        }
        found.push(case);
    }
    found
}

fn part(case: &Case, mark: char) -> &str {
    case.get(&mark).map_or("", String::as_str)
}

/// Writes a tree as a line for each node.
fn shown(tree: &Tree) -> String {
    let mut lines = Vec::new();
    let mut left: Vec<(Node<'_>, usize)> = vec![(tree.root(), 0)];
    while let Some((node, depth)) = left.pop() {
        let text = if node.is_lexeme() { format!(" {}", node.text()) } else { String::new() };
        lines.push(format!("{}{}{}", " ".repeat(depth), node.name(), text));
        let children: Vec<_> = node.children().collect();
        left.extend(children.into_iter().rev().map(|it| (it, depth + 1)));
    }
    lines.join("\n")
}

/// Writes all errors: a line for each, for the first eight tokens that may come there, and for each repair.
fn errors(parser: &mut Parser, text: &str, edits: usize) -> Result<String, Error> {
    let found = parser.errors(text, edits)?;
    if let [TextError { token: None, start, .. }] = found[..] {
        return Ok(format!("!unlexed {start}"));
    }
    assert_eq!(parser.lex(text).and_then(|lexemes| parser.lexeme_errors(&lexemes, edits))?, found);
    let mut lines = Vec::new();
    for error in &found {
        let names: Vec<_> = error.expected.iter().take(8).map(|it| if it.is_empty() { "$" } else { it }).collect();
        let more = if error.expected.len() > 8 { format!(" +{}", error.expected.len() - 8) } else { String::new() };
        lines.push(format!("error {}\nexpected {}{more}", error.start, names.join(" ")));
        for repair in &error.repairs {
            let steps: Vec<_> = repair
                .iter()
                .map(|step| match step {
                    Step::Insert { token } => format!("insert {token}"),
                    Step::Delete { start, end, .. } => format!("delete {}", &text[*start..*end]),
                    Step::Shift { start, end, .. } => format!("shift {}", &text[*start..*end]),
                })
                .collect();
            lines.push(format!("repair {}", steps.join(", ")));
        }
    }
    Ok(lines.join("\n"))
}

/// Returns what a parser answers to a text.
fn parsed(parser: &mut Parser, case: &Case) -> Result<String, Error> {
    let text = part(case, '<');
    match part(case, '@').split_once(' ') {
        Some(("errors", edits)) => errors(parser, text, edits.parse().unwrap()),
        Some((_, edits)) => Ok(parser.parse_json(text, "g.txt", edits.parse().unwrap())?.trim_end().to_string()),
        None => Ok(shown(&parser.parse(text)?)),
    }
}

/// Returns what the library answers, as a case says it.
fn answer(case: &Case) -> String {
    let grammar = part(case, '|');
    let found = match part(case, '@') {
        "report" => {
            let (told, object) = (lrkit::report(grammar, "g.y").unwrap(), lrkit::report_json(grammar, "g.y").unwrap());
            assert_eq!(told.outcome, object.outcome);
            assert!(object.text.starts_with("{\"version\":1,\"status\":"));
            let with_states = lrkit::report_states(grammar, "g.y").unwrap();
            assert_eq!(with_states.outcome, told.outcome);
            assert!(told.outcome == 2 || with_states.text.contains("\nStates:\n0: "));
            return format!("!outcome {}", told.outcome);
        },
        "import" => lrkit::import(grammar),
        _ => Parser::with_lexer(grammar, part(case, '$')).and_then(|mut parser| parsed(&mut parser, case)),
    };
    match found {
        Ok(text) => text,
        Err(Error::File(_)) => "!file 0".to_string(),
        Err(Error::Grammar(_)) => "!grammar 0".to_string(),
        Err(Error::Unlexed(fault)) => format!("!unlexed {}", fault.start),
        Err(Error::Syntax(fault)) => format!("!syntax {}", fault.start),
        Err(error) => error.to_string(),
    }
}

fn wanted(case: &Case) -> String {
    case.get(&'!').map_or_else(|| part(case, '>').to_string(), |it| format!("!{}", it))
}

#[test]
fn each() {
    let all = cases();
    assert!(all.len() >= 200);
    for case in &all {
        assert_eq!(answer(case), wanted(case), "{}", part(case, '='));
    }
}

#[test]
fn threads() {
    let all: Vec<_> = (0..8).map(|_| thread::spawn(|| cases().iter().filter(|it| answer(it) != wanted(it)).count())).collect();
    for one in all {
        assert_eq!(one.join().unwrap(), 0);
    }
}

#[test]
fn errors_have_places() {
    let mut parser = Parser::with_lexer("%token NUM\n%left '+'\n%%\nE: E '+' E | NUM;\n", "%%\n[0-9]+ \"NUM\"\n\\+ \"+\"\n[ ]+ ;\n").unwrap();
    match parser.parse("1 + + 2") {
        Err(Error::Syntax(fault)) => {
            assert_eq!((fault.start, fault.end, fault.token.as_deref(), fault.may_end), (4, 5, Some("+"), false));
            assert_eq!(fault.expected, ["NUM"]);
        }
        other => panic!("{:?}", other),
    }
    let lexemes = parser.lex("1 + 2").unwrap();
    assert_eq!(parser.parse_lexemes(&lexemes, "1 + 2").unwrap().sexp(), "(E (E 1) + (E 2))");
    assert_eq!(parser.expected(&lexemes[..2]).unwrap(), Some(vec![parser.token("NUM").unwrap()]));
    assert_eq!(parser.token("none"), None);
    assert_eq!(parser.counts().tokens, 3);
    assert!(matches!(Parser::new("%% S: T;"), Err(Error::Grammar(_))));
    assert!(matches!(Parser::new("%% S: 'a';").unwrap().parse("a"), Err(Error::Other(_))));
}

#[test]
fn lexemes_as_objects() {
    let mut parser = Parser::with_lexer("%token NUM\n%left '+'\n%%\nE: E '+' E | NUM;\n", "%%\n[0-9]+ \"NUM\"\n\\+ \"+\"\n[ ]+ ;\n").unwrap();
    let text = "1 + + 2";
    let lexemes = parser.lex(text).unwrap();
    assert_eq!(parser.parse_lexemes_json(&lexemes, text, 1).unwrap(), parser.parse_json(text, "", 1).unwrap());
    let found = parser.errors(text, 1).unwrap();
    assert_eq!(found.len(), 1);
    assert_eq!(found[0].repairs[0][0].to_string(), "delete +");
    assert!(matches!(Parser::new("%% S: 'a';").unwrap().errors("a", 1), Err(Error::Other(_))));
}
