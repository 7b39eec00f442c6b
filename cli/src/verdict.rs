//! The verdict on a list, as text, as CSV and as JSON.

use pica::{Counts, State};

use crate::json::Value;
use crate::lists::{self, List, Problem};
use crate::refusals;
use crate::text::grouped;

/// What is said of an accepted list.
pub struct Accepted {
    /// Its writes, and how many of them made a difference, read into a state of zeros.
    pub counts: Counts,
    pub words: u64,
    pub remark: Option<&'static str>,
}

pub type Verdict = Result<Accepted, Problem>;

/// Reads the list into a state of zeros.
pub fn of(list: &List) -> Verdict {
    let counts = State::default()
        .read(&list.words)
        .map_err(Problem::Refused)?;
    Ok(Accepted {
        counts,
        words: list.words.len() as u64,
        remark: list.remark(),
    })
}

/// The columns of CSV and the names of JSON, with those that a subcommand has of its own. The last one stands behind all others, so
/// that a program which takes columns by place finds them where they were before it came.
pub fn columns(own: &[&'static str]) -> Vec<&'static str> {
    [&COLUMNS[..], own, &[DIFFERENCES]].concat()
}

const COLUMNS: [&str; 8] = [
    "verdict",
    "writes",
    "words",
    "number",
    "place",
    "byte",
    "meaning",
    "what_to_do",
];

const DIFFERENCES: &str = "differences";

/// The whole of it, on one line.
pub fn line(verdict: &Verdict) -> String {
    match verdict {
        Err(problem) => problem.text(),
        Ok(list) => {
            let remark = list
                .remark
                .map_or(String::new(), |remark| format!(" ({remark})"));
            format!(
                "ok, {} ({} made a difference), {}{remark}",
                counted(list.counts.writes as u64, "write"),
                grouped(list.counts.differences as u64),
                counted(list.words, "word")
            )
        }
    }
}

pub fn counted(number: u64, what: &str) -> String {
    format!(
        "{} {what}{}",
        grouped(number),
        if number == 1 { "" } else { "s" }
    )
}

/// The verdict, its numbers by the columns' order, and two texts.
type Row = (&'static str, [Option<u64>; 5], [String; 2]);

fn row(verdict: &Verdict) -> Row {
    match verdict {
        Ok(list) => {
            let (writes, words) = (list.counts.writes as u64, list.words);
            (
                "ok",
                [Some(writes), Some(words), None, None, None],
                [list.remark.unwrap_or_default().to_owned(), String::new()],
            )
        }
        Err(Problem::Refused(refusal)) => {
            let (number, place) = (refusal.number, u64::from(refusal.place));
            let texts = [
                refusals::meaning(number).to_owned(),
                refusals::advice(number).to_owned(),
            ];
            (
                "refused",
                [
                    None,
                    None,
                    Some(number.into()),
                    Some(place),
                    lists::byte(*refusal),
                ],
                texts,
            )
        }
        Err(Problem::Unreadable(reason)) => (
            "unreadable",
            [None; 5],
            [reason.why.clone(), reason.advice.to_owned()],
        ),
    }
}

fn differences(verdict: &Verdict) -> Option<u64> {
    let list = verdict.as_ref().ok()?;
    Some(list.counts.differences as u64)
}

/// The fields of a CSV row, with the subcommand's own.
pub fn fields(verdict: &Verdict, own: &[String]) -> Vec<String> {
    let number = |number: Option<u64>| number.map_or(String::new(), |number| number.to_string());
    let last = number(differences(verdict));
    let (verdict, numbers, texts) = row(verdict);
    [verdict.to_owned()]
        .into_iter()
        .chain(numbers.map(number))
        .chain(texts)
        .chain(own.iter().cloned())
        .chain([last])
        .collect()
}

/// The names and values of a JSON object, with the subcommand's own.
pub fn values(verdict: &Verdict, own: Vec<(&'static str, Value)>) -> Vec<(&'static str, Value)> {
    let last = (DIFFERENCES, Value::from(differences(verdict)));
    let (verdict, numbers, texts) = row(verdict);
    let text = |text: String| {
        if text.is_empty() {
            Value::Null
        } else {
            Value::Text(text)
        }
    };
    let values = [Value::Text(verdict.to_owned())]
        .into_iter()
        .chain(numbers.map(Value::from))
        .chain(texts.map(text));
    let pairs = COLUMNS.into_iter().zip(values);
    pairs.chain(own).chain([last]).collect()
}

/// How verdicts are printed.
#[derive(Clone, Copy, PartialEq)]
pub enum Form {
    Text,
    Csv,
    Json,
}

impl Form {
    /// By the options `--csv` and `--json`; none where both are given.
    pub fn of(csv: bool, json: bool) -> Option<Self> {
        match (csv, json) {
            (false, false) => Some(Self::Text),
            (true, false) => Some(Self::Csv),
            (false, true) => Some(Self::Json),
            (true, true) => None,
        }
    }
}
