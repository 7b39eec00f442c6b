//! `pica show`: what a list sets, with the documents' names.

mod fields;
mod mark;
mod numbers;
mod objects;
mod tables;
mod trace;
mod unheld;

use std::ffi::{OsStr, OsString};
use std::io::{self, Write};

use pica::names::{code_name, register_name, Field, Kind, FIELDS};
use pica::{Refusal, State};

use crate::input::{shown, single};
use crate::lists::{self, List};
use crate::options::{parse, wrong, Known};
use crate::output::Output;
use crate::status::{note, Failure, Outcome, Status};
use crate::text::grouped;
use mark::View;
use trace::Trace;

pub const SUMMARY: &str = "what a list sets, register by register and field by field";

pub const HELP: &str = "\
Usage: pica show FILE [--from FILE] [--all | --changes] [--entries | --json]

Shows what the list in FILE (- for standard input) sets: each register that it writes, with what is
then held, and each of the register's fields with its number in hexadecimal, what that stands for
(the code's name, a float's value, else the number in decimal) and what it was before, where that
differs. Then the entries of the fog and light tables by ranges, and the registers that are written
and not held, with the last value written. Writes with mask 0 set nothing and are left out. Names
are those of the documents; ids are hexadecimal.

  *            before a field or a range of entries: the list changes it
  =            the list writes it and leaves it as it was
  --from FILE  what was before is what this list leaves in a state of zeros; else all was zero.
               Several lists joined are one: cat a.bin b.bin | pica show c.bin --from -
  --all        all fields, and all table entries that aren't zero
  --changes    only what the list changes
  --entries    table entries one by one
  --json       one array of objects, one for each field, entry and register that isn't held: its
               bits as value, what they stand for as meaning, and the same of what was before

viewport_width and height are half the size, and scissor_dim is the last corner, as registers 41, 43
and 67 have them. A list that leaves a code that decoding refuses, by 13, is shown too, and the exit
status is then 1.

Examples
  pica show examples/triangle-state.bin
  pica show second.bin --from first.bin --changes
";

const OPTIONS: [Known; 5] = [
    ("--from", Some("a file")),
    ("--all", None),
    ("--changes", None),
    ("--entries", None),
    ("--json", None),
];

pub fn run(args: &[OsString], out: &mut Output) -> Outcome {
    let given = parse("show", args, &OPTIONS)?;
    let path = given.only_path("show", "the list to show, or -")?;
    let from = given.value("--from");
    if path == "-" && from == Some(path) {
        return Err(wrong(
            "show",
            "reads standard input once, as FILE or for --from",
        ));
    }
    let view = View {
        all: given.has("--all"),
        changes: given.has("--changes"),
        entries: given.has("--entries"),
    };
    if view.all && view.changes {
        return Err(wrong("show", "shows --all or --changes, not both"));
    }
    let (list, trace) = match follow(path, from)? {
        Ok(followed) => followed,
        Err(status) => return Ok(status),
    };
    let undecoded = undecoded(&trace.after);
    if given.has("--json") {
        undecoded.iter().for_each(|why| note(why));
        objects::show(&trace, view, out)?;
    } else {
        head(path, &list, from, out)?;
        undecoded
            .iter()
            .try_for_each(|why| writeln!(out, "{why}"))?;
        lines(&trace, view, out)?;
    }
    Ok(undecoded.map_or(Status::Well, |_| Status::Refused))
}

/// The list and what it does, on what the other one leaves; or the status where one of them is no accepted list.
fn follow(path: &OsStr, from: Option<&OsStr>) -> Result<Result<(List, Trace), Status>, Failure> {
    let mut before = State::default();
    if let Some(from) = from {
        match loaded(from) {
            Ok(list) => before.read(&list.words).map_err(stopped)?,
            Err(status) => return Ok(Err(status)),
        };
    }
    match loaded(path) {
        Ok(list) => {
            let trace = Trace::follow(before, &list.writes).map_err(stopped)?;
            Ok(Ok((list, trace)))
        }
        Err(status) => Ok(Err(status)),
    }
}

/// The list, or the status where there is none, after its problem has been told.
fn loaded(path: &OsStr) -> Result<List, Status> {
    lists::load(&single(path)).map_err(|problem| {
        note(&format!("{}: {}", shown(path), problem.text()));
        problem.status()
    })
}

/// An accepted list is read, and its writes are applied, without a refusal: that is proved of the library.
fn stopped(refusal: Refusal) -> Failure {
    Failure::Stopped(format!(
        "an accepted list was refused, so the library isn't the one that was proved: {refusal}"
    ))
}

fn counted(number: usize, what: &str) -> String {
    let ending = if number == 1 { "" } else { "s" };
    format!("{} {what}{ending}", grouped(number as u64))
}

fn head(path: &OsStr, list: &List, from: Option<&OsStr>, out: &mut Output) -> io::Result<()> {
    let writes = counted(list.writes.len(), "write");
    let words = counted(list.words.len(), "word");
    let was = match from {
        Some(from) => format!("what {} leaves", shown(from)),
        None => String::from("a state of zeros"),
    };
    let remark = match list.remark() {
        Some(remark) => format!(" ({remark})"),
        None => String::new(),
    };
    writeln!(
        out,
        "{}: {writes}, {words}, against {was}{remark}",
        shown(path)
    )
}

fn lines(trace: &Trace, view: View, out: &mut Output) -> io::Result<()> {
    let held = fields::show(trace, view, out)?;
    let entries = tables::show(trace, view, out)?;
    if !held && !entries {
        let what = if view.changes { "changed" } else { "set" };
        writeln!(out, "\nNothing that is held is {what}.")?;
    }
    if view.changes {
        return Ok(());
    }
    unheld::show(trace, out)
}

/// Where a code without a name keeps the state from being decoded. What is shown are then the registers' bits.
fn undecoded(state: &State) -> Option<String> {
    let (words, refusal) = fields::of(state);
    let Refusal { number, place: id } = refusal?;
    let name = register_name(id).unwrap_or_default();
    let nameless = |(k, field): (usize, &Field)| {
        let has_codes = matches!(field.kind, Kind::Code(_));
        field.register == id && has_codes && code_name(k, words[k]).is_none()
    };
    let why = if FIELDS.iter().enumerate().any(nameless) {
        "a code without a name"
    } else {
        "an alpha mode 6 or 7 without RGB mode 7"
    };
    Some(format!(
        "refused {number}: not decoded, because {id:03X} {name} has {why}"
    ))
}
