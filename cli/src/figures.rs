//! The figures of a forecast: of one list, of all, and as CSV.

use pica::Refusal;

use crate::csv;
use crate::lists::{List, Problem};
use crate::parts::{Run, Shortest};
use crate::rate::Rate;
use crate::refusals;
use crate::text::grouped;

/// Of one list, or the sums of several.
#[derive(Clone, Copy, Debug, Default, PartialEq, Eq)]
pub struct Figures {
    pub words: u64,
    pub writes: u64,
    pub shortest: Shortest,
    pub remark: Option<&'static str>,
}

/// What is told of one path.
pub struct Row {
    pub name: String,
    pub found: Result<Figures, Problem>,
}

#[derive(Default)]
pub struct Totals {
    pub lists: u64,
    pub refused: u64,
    pub unreadable: u64,
    /// Of the accepted lists.
    pub sum: Figures,
}

impl Figures {
    pub fn of(list: &List) -> Result<Self, Refusal> {
        let words = list.words.len() as u64;
        let shortest = Run::new(&list.writes)?.shortest(words)?;
        Ok(Self {
            words,
            writes: list.writes.len() as u64,
            shortest,
            remark: list.remark(),
        })
    }

    /// The words saved: at least and at most so many.
    pub fn saved(&self) -> Shortest {
        let Shortest { least, most } = self.shortest;
        Shortest {
            least: self.words - most,
            most: self.words - least,
        }
    }

    /// Whether the shortest length is known by bounds only.
    pub fn is_bounded(&self) -> bool {
        self.shortest.least != self.shortest.most
    }

    pub fn add(&mut self, other: &Self) {
        self.words += other.words;
        self.writes += other.writes;
        self.shortest.least += other.shortest.least;
        self.shortest.most += other.shortest.most;
    }
}

impl Totals {
    pub fn add(&mut self, row: &Row) {
        match &row.found {
            Ok(figures) => {
                self.lists += 1;
                self.sum.add(figures);
            }
            Err(Problem::Refused(_)) => self.refused += 1,
            Err(Problem::Unreadable(_)) => self.unreadable += 1,
        }
    }

    /// What the sums leave out.
    pub fn left_out(&self) -> Option<String> {
        let (refused, unreadable) = (grouped(self.refused), grouped(self.unreadable));
        match (self.refused, self.unreadable) {
            (0, 0) => None,
            (_, 0) => Some(format!("without {refused} refused")),
            (0, _) => Some(format!("without {unreadable} unreadable")),
            _ => Some(format!(
                "without {refused} refused and {unreadable} unreadable"
            )),
        }
    }
}

const COLUMNS: [&str; 13] = [
    "path",
    "verdict",
    "words",
    "writes",
    "shortest_at_least",
    "shortest_at_most",
    "saved_at_least",
    "saved_at_most",
    "captured_seconds",
    "shortest_at_least_seconds",
    "shortest_at_most_seconds",
    "meaning",
    "what_to_do",
];

/// All rows as CSV.
pub fn csv(rows: &[Row], rate: Option<Rate>) -> String {
    let mut text = csv::row(&COLUMNS);
    for row in rows {
        text.push_str(&csv::row(&fields(row, rate)));
    }
    text
}

fn fields(row: &Row, rate: Option<Rate>) -> Vec<String> {
    let (verdict, [meaning, advice]) = match &row.found {
        Ok(figures) => ("ok", [figures.remark.unwrap_or_default(), ""]),
        Err(Problem::Refused(refusal)) => (
            "refused",
            [
                refusals::meaning(refusal.number),
                refusals::advice(refusal.number),
            ],
        ),
        Err(Problem::Unreadable(reason)) => ("unreadable", [reason.why.as_str(), reason.advice]),
    };
    let (numbers, seconds) = row
        .found
        .as_ref()
        .map_or_else(|_| Default::default(), |figures| numbers(figures, rate));
    let start = [csv::path(&row.name), verdict.to_owned()];
    let end = [meaning.to_owned(), advice.to_owned()];
    start
        .into_iter()
        .chain(numbers)
        .chain(seconds)
        .chain(end)
        .collect()
}

fn numbers(figures: &Figures, rate: Option<Rate>) -> ([String; 6], [String; 3]) {
    let Figures {
        words,
        writes,
        shortest,
        ..
    } = *figures;
    let saved = figures.saved();
    let numbers = [
        words,
        writes,
        shortest.least,
        shortest.most,
        saved.least,
        saved.most,
    ];
    let seconds = |words| rate.map_or_else(String::new, |rate| rate.seconds(words));
    (
        numbers.map(|number| number.to_string()),
        [words, shortest.least, shortest.most].map(seconds),
    )
}

#[cfg(test)]
mod tests {
    use super::*;

    #[test]
    fn what_is_left_out_is_counted() {
        let left_out = |refused, unreadable| {
            let totals = Totals {
                refused,
                unreadable,
                ..Totals::default()
            };
            totals.left_out().unwrap_or_default()
        };
        assert_eq!(left_out(0, 0), "");
        assert_eq!(left_out(1000, 0), "without 1,000 refused");
        assert_eq!(left_out(0, 2), "without 2 unreadable");
        assert_eq!(left_out(1, 2000), "without 1 refused and 2,000 unreadable");
    }
}
