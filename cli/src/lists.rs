//! A list that is read and judged: its words and writes, or what is wrong with it.

use pica::{writes_of, Refusal, Write};

use crate::input::{Entry, Fault, Reason};
use crate::refusals;
use crate::status::Status;

/// An accepted list.
pub struct List {
    pub words: Vec<u32>,
    pub writes: Vec<Write>,
}

/// Why there is none.
pub enum Problem {
    Refused(Refusal),
    Unreadable(Reason),
}

/// Reads and judges.
pub fn load(entry: &Entry) -> Result<List, Problem> {
    let words = entry.words().map_err(|fault| match fault {
        Fault::TooLong => Problem::Refused(Refusal {
            number: Refusal::LIST_TOO_LONG,
            place: 0,
        }),
        Fault::Unreadable(reason) => Problem::Unreadable(reason),
    })?;
    let writes = writes_of(&words).map_err(Problem::Refused)?;
    Ok(List { words, writes })
}

impl List {
    pub fn remark(&self) -> Option<&'static str> {
        let is_blank = self.words.iter().all(|&word| word == 0);
        remark(self.words.len() as u64, is_blank, self.writes.len())
    }
}

/// What is worth a word beside the verdict on an accepted list, by its words, whether they are all 0, and its writes. Only what is sure:
/// a write may still go to a register that isn't held.
pub fn remark(words: u64, is_blank: bool, writes: usize) -> Option<&'static str> {
    match (words, writes) {
        (0, _) => Some("empty"),
        (_, 0) if is_blank => Some("sets nothing: every word is 0"),
        (_, 0) => Some("sets nothing: every mask is 0"),
        _ => None,
    }
}

impl Problem {
    pub fn status(&self) -> Status {
        match self {
            Self::Refused(_) => Status::Refused,
            Self::Unreadable(_) => Status::Unreadable,
        }
    }

    /// The whole of it, on one line.
    pub fn text(&self) -> String {
        match self {
            Self::Unreadable(reason) => format!("unreadable: {}; {}", reason.why, reason.advice),
            Self::Refused(refusal) => {
                let number = refusal.number;
                let (meaning, advice) = (refusals::meaning(number), refusals::advice(number));
                format!("refused {number}{}: {meaning}; {advice}", place(*refusal))
            }
        }
    }
}

/// Where in the list.
fn place(refusal: Refusal) -> String {
    match byte(refusal) {
        None => String::new(),
        Some(_) => format!(" at {}", word(refusal.place.into())),
    }
}

/// A word by its number, and by that of its first byte.
pub fn word(number: u64) -> String {
    let byte = 4 * number;
    format!("word {number}, byte {byte} ({byte:X}h)")
}

/// The byte at which the command at fault begins; refusals 1 and 15 are about the whole list.
pub fn byte(refusal: Refusal) -> Option<u64> {
    let is_length = matches!(
        refusal.number,
        Refusal::LIST_TOO_LONG | Refusal::ILLEGAL_LENGTH
    );
    (!is_length).then(|| 4 * u64::from(refusal.place))
}
