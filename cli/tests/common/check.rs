//! Small readers of CSV, JSON and XML, which fail on what is malformed.

use std::collections::BTreeMap;
use std::iter::Peekable;
use std::str::Chars;

/// The records of a CSV as RFC 4180 has it.
pub fn csv(text: &str) -> Vec<Vec<String>> {
    let mut records = Vec::new();
    let mut rest = text;
    while !rest.is_empty() {
        let mut record = Vec::new();
        loop {
            let (field, after) = csv_field(rest);
            record.push(field);
            rest = after;
            if let Some(after) = rest.strip_prefix(',') {
                rest = after;
            } else {
                rest = rest.strip_prefix("\r\n").expect("a record ends in CR LF");
                break;
            }
        }
        records.push(record);
    }
    assert!(
        records
            .iter()
            .all(|record| record.len() == records[0].len()),
        "records of one length"
    );
    records
}

fn csv_field(text: &str) -> (String, &str) {
    let Some(mut rest) = text.strip_prefix('"') else {
        let end = text.find([',', '\r', '\n', '"']).expect("a field ends");
        return (text[..end].to_owned(), &text[end..]);
    };
    let mut field = String::new();
    loop {
        let end = rest.find('"').expect("a quoted field ends in a quote");
        field.push_str(&rest[..end]);
        rest = &rest[end + 1..];
        match rest.strip_prefix('"') {
            Some(after) => rest = after,
            None => return (field, rest),
        }
        field.push('"');
    }
}

#[derive(Debug, PartialEq)]
pub enum Json {
    Null,
    Number(u64),
    Text(String),
    Array(Vec<Json>),
    Object(BTreeMap<String, Json>),
}

impl Json {
    pub fn at(&self, name: &str) -> &Json {
        match self {
            Self::Object(fields) => fields.get(name).unwrap_or_else(|| panic!("no {name}")),
            other => panic!("no object: {other:?}"),
        }
    }

    pub fn text(&self, name: &str) -> &str {
        match self.at(name) {
            Self::Text(text) => text,
            other => panic!("{name} is no text: {other:?}"),
        }
    }
}

/// One JSON value, as far as the command prints any.
pub fn json(text: &str) -> Json {
    let mut letters = text.chars().peekable();
    let value = json_value(&mut letters);
    assert_eq!(
        letters.find(|letter| !letter.is_whitespace()),
        None,
        "nothing after the value"
    );
    value
}

fn skip(letters: &mut Peekable<Chars>) {
    while letters
        .next_if(|letter| " \n\r\t".contains(*letter))
        .is_some()
    {}
}

fn json_value(letters: &mut Peekable<Chars>) -> Json {
    skip(letters);
    match letters.peek().expect("a value") {
        '"' => Json::Text(json_text(letters)),
        '[' => Json::Array(json_members(letters, ']', json_value)),
        '{' => {
            let pair = |letters: &mut Peekable<Chars>| {
                skip(letters);
                let name = json_text(letters);
                skip(letters);
                assert_eq!(letters.next(), Some(':'));
                (name, json_value(letters))
            };
            Json::Object(json_members(letters, '}', pair).into_iter().collect())
        }
        'n' => {
            assert_eq!(letters.take(4).collect::<String>(), "null");
            Json::Null
        }
        _ => {
            let digits: String =
                std::iter::from_fn(|| letters.next_if(char::is_ascii_digit)).collect();
            Json::Number(digits.parse().expect("a number"))
        }
    }
}

fn json_members<T>(
    letters: &mut Peekable<Chars>,
    end: char,
    member: fn(&mut Peekable<Chars>) -> T,
) -> Vec<T> {
    letters.next();
    let mut members = Vec::new();
    skip(letters);
    if letters.next_if_eq(&end).is_some() {
        return members;
    }
    loop {
        members.push(member(letters));
        skip(letters);
        match letters.next() {
            Some(',') => {}
            Some(last) if last == end => return members,
            other => panic!("expected a comma or {end}, found {other:?}"),
        }
    }
}

fn json_text(letters: &mut Peekable<Chars>) -> String {
    assert_eq!(letters.next(), Some('"'));
    let mut text = String::new();
    loop {
        match letters.next().expect("a string ends") {
            '"' => return text,
            '\\' => match letters.next().expect("an escape") {
                'u' => {
                    let digits: String = letters.take(4).collect();
                    let code = u32::from_str_radix(&digits, 16).expect("four hexadecimal digits");
                    text.push(char::from_u32(code).expect("a character"));
                }
                letter if "\"\\/".contains(letter) => text.push(letter),
                other => panic!("escape {other}"),
            },
            letter => {
                assert!(!letter.is_control(), "a control character in a string");
                text.push(letter);
            }
        }
    }
}

/// Elements are nested and closed, ampersands are escapes; gives the texts.
pub fn xml(text: &str) -> Vec<String> {
    let (mut open, mut texts) = (Vec::new(), Vec::new());
    let body = text.split_once("?>").expect("a declaration").1.trim_start();
    assert!(text
        .chars()
        .all(|letter| letter == '\n' || !letter.is_control()));
    for piece in body.split('<').skip(1) {
        let (tag, after) = piece.split_once('>').expect("a tag ends");
        if let Some(name) = tag.strip_prefix('/') {
            assert_eq!(open.pop(), Some(name));
        } else {
            assert_eq!(tag.matches('"').count() % 2, 0, "{tag}");
            assert!(
                !open.is_empty() || texts.is_empty(),
                "one element holds all"
            );
            if !tag.ends_with('/') {
                open.push(tag.split(' ').next().expect("a name"));
            }
        }
        assert!(!after.contains('>'), "{after}");
        if !after.trim().is_empty() {
            texts.push(unescaped(after));
        }
    }
    assert_eq!(open, Vec::<&str>::new());
    texts
}

fn unescaped(text: &str) -> String {
    let known = [
        ("&lt;", "<"),
        ("&gt;", ">"),
        ("&quot;", "\""),
        ("&amp;", "&"),
    ];
    let bare = known.iter().fold(text.to_owned(), |text, (escape, _)| {
        text.replace(escape, "")
    });
    assert!(!bare.contains('&'), "{text}");
    known
        .iter()
        .fold(text.to_owned(), |text, (escape, letter)| {
            text.replace(escape, letter)
        })
}
