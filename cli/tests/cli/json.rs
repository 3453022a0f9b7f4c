//! A small reader of JSON, which takes nothing but JSON.

use std::iter::Peekable;
use std::str::Chars;

#[derive(Clone, Debug, PartialEq)]
pub enum Json {
    Null,
    Truth(bool),
    /// A number, as it is written.
    Number(String),
    Text(String),
    Array(Vec<Json>),
    Object(Vec<(String, Json)>),
}

impl Json {
    #[track_caller]
    pub fn parse(text: &str) -> Json {
        let mut rest = text.chars().peekable();
        let value = value(&mut rest);
        assert_eq!(rest.next(), None, "more after the value: {text}");
        value
    }

    /// The values of lines of JSON.
    #[track_caller]
    pub fn lines(text: &str) -> Vec<Json> {
        assert!(text.is_empty() || text.ends_with('\n'));
        text.lines().map(Json::parse).collect()
    }

    /// The names of an object's members.
    pub fn names(&self) -> Vec<&str> {
        match self {
            Json::Object(members) => members.iter().map(|(name, _)| name.as_str()).collect(),
            other => panic!("no object: {other:?}"),
        }
    }

    #[track_caller]
    pub fn at(&self, name: &str) -> &Json {
        match self {
            Json::Object(members) => members.iter().find(|member| member.0 == name),
            other => panic!("no object: {other:?}"),
        }
        .map_or_else(|| panic!("no {name} in {self:?}"), |member| &member.1)
    }

    #[track_caller]
    pub fn text(&self) -> &str {
        match self {
            Json::Text(text) => text,
            other => panic!("no text: {other:?}"),
        }
    }

    #[track_caller]
    pub fn number(&self) -> u64 {
        match self {
            Json::Number(digits) => digits.parse().expect("a number"),
            other => panic!("no number: {other:?}"),
        }
    }

    #[track_caller]
    pub fn truth(&self) -> bool {
        match self {
            Json::Truth(truth) => *truth,
            other => panic!("neither true nor false: {other:?}"),
        }
    }

    #[track_caller]
    pub fn array(&self) -> &[Json] {
        match self {
            Json::Array(values) => values,
            other => panic!("no array: {other:?}"),
        }
    }
}

type Rest<'a> = Peekable<Chars<'a>>;

fn value(rest: &mut Rest) -> Json {
    match rest.peek().copied().expect("a value") {
        '{' => Json::Object(list(rest, '{', '}', member)),
        '[' => Json::Array(list(rest, '[', ']', value)),
        '"' => Json::Text(string(rest)),
        't' => word(rest, "true", Json::Truth(true)),
        'f' => word(rest, "false", Json::Truth(false)),
        'n' => word(rest, "null", Json::Null),
        _ => Json::Number(number(rest)),
    }
}

/// Values between brackets, with commas between them.
fn list<T>(rest: &mut Rest, open: char, close: char, item: fn(&mut Rest) -> T) -> Vec<T> {
    take(rest, open);
    let mut items = Vec::new();
    if rest.next_if_eq(&close).is_some() {
        return items;
    }
    loop {
        items.push(item(rest));
        match rest.next() {
            Some(',') => {}
            other => {
                assert_eq!(other, Some(close));
                return items;
            }
        }
    }
}

fn member(rest: &mut Rest) -> (String, Json) {
    let name = string(rest);
    take(rest, ':');
    (name, value(rest))
}

fn take(rest: &mut Rest, c: char) {
    assert_eq!(rest.next(), Some(c));
}

fn word(rest: &mut Rest, word: &str, value: Json) -> Json {
    word.chars().for_each(|c| take(rest, c));
    value
}

fn number(rest: &mut Rest) -> String {
    let mut digits = String::new();
    while let Some(digit) = rest.next_if(char::is_ascii_digit) {
        digits.push(digit);
    }
    assert!(!digits.is_empty(), "no value at {:?}", rest.peek());
    assert!(digits == "0" || !digits.starts_with('0'), "{digits}");
    digits
}

fn string(rest: &mut Rest) -> String {
    take(rest, '"');
    let mut text = String::new();
    loop {
        match rest.next().expect("the string ends") {
            '"' => return text,
            '\\' => text.push(escaped(rest)),
            c => {
                assert!(c >= ' ', "a bare control character: {c:?}");
                text.push(c);
            }
        }
    }
}

fn escaped(rest: &mut Rest) -> char {
    match rest.next().expect("an escape") {
        'n' => '\n',
        'r' => '\r',
        't' => '\t',
        'u' => {
            let digits: String = rest.take(4).collect();
            let code = u32::from_str_radix(&digits, 16).expect("four digits");
            char::from_u32(code).expect("a character")
        }
        c => {
            assert!("\"\\/".contains(c), "no escape: {c:?}");
            c
        }
    }
}

#[test]
fn json_is_read() {
    let json = Json::parse(r#"{"a":[1,{"b":"x\"\\\u0041\n"},null],"c":true}"#);
    assert_eq!(json.names(), ["a", "c"]);
    assert_eq!(json.at("a").array()[0].number(), 1);
    assert_eq!(json.at("a").array()[1].at("b").text(), "x\"\\A\n");
    assert_eq!(json.at("a").array()[2], Json::Null);
    assert!(json.at("c").truth());
}
