//! `pica pieces`: one list that comes in parts, and its verdict.

use std::ffi::OsString;
use std::io::Write;

use pica::{Pieces, State, LIST_LENGTH_MOST};

use crate::csv;
use crate::input::{entries, Entry, Reason};
use crate::json::{object, Value};
use crate::lists::{byte, remark, word, Problem};
use crate::options::{parse, wrong, Known};
use crate::output::{Output, Written};
use crate::status::{Failure, Outcome, Status};
use crate::text::{grouped, on_one_line};
use crate::verdict::{columns, counted, fields, line, values, Accepted, Form, Verdict};

pub const SUMMARY: &str = "accepts or refuses one list that comes in parts";

pub const HELP: &str = "\
Usage: pica pieces PART .. [--csv | --json]

PART is a file, a folder (every file below it, in order of name) or - (standard input). The parts,
in the order given, are one list, cut anywhere: between the words of a command too, and a part may
be empty. Each is fed as it is read, and gets a line on standard output with its words and how many
have come so far. Then comes the verdict on the list, as `pica judge` has it of the parts joined,
with the differences that its writes made in a state of zeros; the place of a refusal counts from
the list's start, and it is said in which part that word stands.

A part is whole words of four bytes, like a list. One that can't be read ends the run, without a
verdict on the list. The words of all parts together are a multiple of 4, else the list is refused
with 15; those of one part may be any number. Past 65,536 words no more is read.

  --csv    the verdict alone, as two rows of comma-separated values: the columns' names, which are
           those of `pica judge --csv` from verdict to what_to_do, then part, part_word and
           part_byte (the part that is unreadable or that the place is in, and the place in it),
           then differences; and the values
  --json   the same as one object

Examples
  pica pieces examples/pieces
  pica pieces first.bin second.bin --json
  capture-probe | pica pieces header.bin -
";

const OPTIONS: [Known; 2] = [("--csv", None), ("--json", None)];

pub fn run(args: &[OsString], out: &mut Output) -> Outcome {
    let given = parse("pieces", args, &OPTIONS)?;
    let form = Form::of(given.has("--csv"), given.has("--json"))
        .ok_or_else(|| wrong("pieces", "prints --csv or --json, not both"))?;
    if given.paths.is_empty() {
        return Err(wrong(
            "pieces",
            "names no parts: give files, folders or -, in the list's order",
        ));
    }
    let parts = entries(&given.paths, &Written::standard());
    let (verdict, at) = judged(&parts, form, out)?;
    match form {
        Form::Text => say(&verdict, &at, out)?,
        Form::Csv => write_csv(&verdict, &at, out)?,
        Form::Json => writeln!(out, "{}", object(&json(&verdict, at)))?,
    }
    Ok(verdict
        .as_ref()
        .map_or_else(Problem::status, |_| Status::Well))
}

/// The part that a verdict is about: its name, and the word in it where a refusal's place is.
struct At {
    part: String,
    word: Option<u64>,
}

/// The list so far.
struct Feeding<'a> {
    pieces: Pieces<'a>,
    words: u64,
    is_blank: bool,
    /// Each part's name and its first word's place in the list.
    starts: Vec<(String, u64)>,
}

impl Feeding<'_> {
    /// Feeds a part's words as they are read, and gives how many there were.
    fn part(&mut self, entry: &Entry) -> Result<u64, Reason> {
        self.starts.push((entry.name(), self.words));
        entry.each(|words| {
            self.words += words.len() as u64;
            self.is_blank &= words.iter().all(|&word| word == 0);
            self.pieces.feed(words) <= LIST_LENGTH_MOST
        })
    }

    fn is_over(&self) -> bool {
        self.words > LIST_LENGTH_MOST as u64
    }

    fn close(mut self) -> (Verdict, Option<At>) {
        match self.pieces.close() {
            Ok(counts) => {
                let accepted = Accepted {
                    counts,
                    words: self.words,
                    remark: remark(self.words, self.is_blank, counts.writes),
                };
                (Ok(accepted), None)
            }
            Err(refusal) => {
                let at = byte(refusal).map(|_| self.place(refusal.place.into()));
                (Err(Problem::Refused(refusal)), at)
            }
        }
    }

    /// The part in which a word of the list stands: the last one that begins at or before it.
    fn place(&self, place: u64) -> At {
        let at = self.starts.partition_point(|(_, start)| *start <= place) - 1;
        let (part, start) = &self.starts[at];
        At {
            part: part.clone(),
            word: Some(place - start),
        }
    }
}

/// Feeds the parts, with a line for each where the form is text, and closes.
fn judged(parts: &[Entry], form: Form, out: &mut Output) -> Result<(Verdict, Option<At>), Failure> {
    let (mut live, mut spare) = (State::default(), State::default());
    let mut feeding = Feeding {
        pieces: live.open(&mut spare),
        words: 0,
        is_blank: true,
        starts: Vec::new(),
    };
    for entry in parts {
        let words = match feeding.part(entry) {
            Ok(words) => words,
            Err(reason) => {
                let (part, word) = (entry.name(), None);
                return Ok((Err(Problem::Unreadable(reason)), Some(At { part, word })));
            }
        };
        if form == Form::Text {
            let name = on_one_line(&entry.name());
            out.line(&format!("{name}: {}", so_far(words, &feeding)))?;
        }
        if feeding.is_over() {
            break;
        }
    }
    Ok(feeding.close())
}

fn so_far(words: u64, feeding: &Feeding) -> String {
    if feeding.is_over() {
        return format!("over {} words so far", grouped(LIST_LENGTH_MOST as u64));
    }
    format!(
        "{}, {} so far",
        counted(words, "word"),
        grouped(feeding.words)
    )
}

fn say(verdict: &Verdict, at: &Option<At>, out: &mut Output) -> Result<(), Failure> {
    match (verdict, at) {
        (Err(Problem::Unreadable(_)), Some(at)) => {
            writeln!(out, "{}: {}", on_one_line(&at.part), line(verdict))?;
            writeln!(out, "the list: no verdict, because a part is unreadable")?;
        }
        _ => writeln!(out, "the list: {}", line(verdict))?,
    }
    if let Some(At {
        part,
        word: Some(k),
    }) = at
    {
        writeln!(out, "the place is {}, of {}", word(*k), on_one_line(part))?;
    }
    Ok(())
}

const PART_COLUMNS: [&str; 3] = ["part", "part_word", "part_byte"];

fn write_csv(verdict: &Verdict, at: &Option<At>, out: &mut Output) -> Result<(), Failure> {
    let number = |word: Option<u64>| word.map_or(String::new(), |word| word.to_string());
    let part = match at {
        None => [const { String::new() }; 3],
        Some(At { part, word }) => [
            csv::path(part),
            number(*word),
            number(word.map(|word| 4 * word)),
        ],
    };
    let (names, row) = (columns(&PART_COLUMNS), fields(verdict, &part));
    write!(out, "{}{}", csv::row(&names), csv::row(&row))?;
    Ok(())
}

fn json(verdict: &Verdict, at: Option<At>) -> Vec<(&'static str, Value)> {
    let word = at.as_ref().and_then(|at| at.word);
    let part = at.map_or(Value::Null, |at| Value::Text(at.part));
    let of_part = [
        part,
        Value::from(word),
        Value::from(word.map(|word| 4 * word)),
    ];
    values(verdict, PART_COLUMNS.into_iter().zip(of_part).collect())
}
