/// A value of JSON. A text or a number is its part of the text.
pub enum Json<'t> {
    Object(Vec<(&'t str, Json<'t>)>),
    Array(Vec<Json<'t>>),
    Text(&'t str),
    Number(&'t str),
    Flag(bool),
    Nothing,
}

/// A token, which by_pest has none of.
#[allow(dead_code)]
#[derive(Clone, Copy, Debug)]
pub enum Token {
    Open,
    Close,
    Begin,
    End,
    Colon,
    Comma,
    True,
    False,
    Null,
    Number,
    Text,
}

/// Counts the values, so that no parse is left out.
pub fn count(of: &Json<'_>) -> usize {
    match of {
        Json::Object(members) => 1 + members.iter().map(|(name, it)| name.len().min(1) + count(it)).sum::<usize>(),
        Json::Array(values) => 1 + values.iter().map(count).sum::<usize>(),
        Json::Text(text) | Json::Number(text) => text.len().min(1),
        Json::Flag(flag) => 1 | *flag as usize,
        Json::Nothing => 1,
    }
}
