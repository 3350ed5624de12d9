mod tree;

use pest::iterators::{Pair, Pairs};
use pest::Parser;
use tree::{count, Json};

#[derive(pest_derive::Parser)]
#[grammar = "../json.pest"]
struct JsonParser;

fn value(pair: Pair<'_, Rule>) -> Json<'_> {
    match pair.as_rule() {
        Rule::object => Json::Object(
            pair.into_inner()
                .map(|member| {
                    let mut parts = member.into_inner();
                    (parts.next().unwrap().as_str(), value(parts.next().unwrap()))
                })
                .collect(),
        ),
        Rule::array => Json::Array(pair.into_inner().map(value).collect()),
        Rule::text => Json::Text(pair.as_str()),
        Rule::number => Json::Number(pair.as_str()),
        Rule::yes => Json::Flag(true),
        Rule::no => Json::Flag(false),
        _ => Json::Nothing,
    }
}

#[no_mangle]
#[inline(never)]
pub fn bench_pairs(text: &str) -> Pairs<'_, Rule> {
    JsonParser::parse(Rule::json, text).unwrap()
}

#[no_mangle]
#[inline(never)]
pub fn bench_text(text: &str) -> Json<'_> {
    value(JsonParser::parse(Rule::json, text).unwrap().next().unwrap().into_inner().next().unwrap())
}

fn main() {
    let text = std::fs::read_to_string(std::env::args().nth(1).unwrap()).unwrap();
    println!("{} and {} values", bench_pairs(&text).count(), count(&bench_text(&text)));
}
