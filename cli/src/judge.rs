//! `pica judge`: a verdict for each list.

use std::ffi::{OsStr, OsString};
use std::io::Write;
use std::path::Path;

use crate::csv;
use crate::input::{entries, shown, Entry};
use crate::json::{object, Value};
use crate::lists::{self, Problem};
use crate::options::{parse, wrong, Known};
use crate::output::{Output, Written};
use crate::status::{note, Failure, Outcome, Status};
use crate::text::{grouped, on_one_line};
use crate::verdict::{self, columns, fields, line, values, Form, Verdict};

pub const SUMMARY: &str = "accepts or refuses lists, and says why";

pub const HELP: &str = "\
Usage: pica judge PATH .. [--csv | --json]

PATH is a file, a folder (every file below it, in order of name) or - (standard input). Each list
gets a line on standard output: `ok` with its register writes, how many of them made a difference,
and its words; or `refused` with the refusal's number, the place of the command at fault (in words
and in bytes from the file's start), what it means and what to do; or `unreadable` and why. A list
that sets nothing gets a remark. Of several lists it is said at the end, on standard error, how many
were accepted.

A list's words are a multiple of 4 in number, sixteen bytes, else it is refused with 15: the chip
never comes to an odd last pair. Where no more than a pair is missing, two words 0 behind the list
fill it, as `truncate -s %16` does to a copy. Writes with mask 0 set nothing: they are checked like
all others, and neither count has them.

Each list is read into a state of zeros of its own. A write made a difference if the register, table
entry or index that it touches differs afterwards; each is judged on what those before it left. Data
of the fog and light tables counts always, since it moves their index. The other writes set nothing
new, or went to a register that isn't held, of shaders, vertex buffers or drawing: what these do
isn't known here, and `pica show` lists them.

  --csv    rows of comma-separated values on standard output (in UTF-8, with lines that end in
           CR LF), the first with the columns' names: path, verdict (ok, refused or unreadable),
           writes, words, number, place, byte, meaning, what_to_do, differences
  --json   the same as one array of objects

Examples
  pica judge captures/
  pica judge --csv captures/ > verdicts.csv
  capture-tool | pica judge -
";

const OPTIONS: [Known; 2] = [("--csv", None), ("--json", None)];

/// How many lists of each verdict there were.
#[derive(Default)]
struct Count {
    accepted: u64,
    refused: u64,
    unreadable: u64,
}

pub fn run(args: &[OsString], out: &mut Output) -> Outcome {
    let given = parse("judge", args, &OPTIONS)?;
    let form = Form::of(given.has("--csv"), given.has("--json"))
        .ok_or_else(|| wrong("judge", "prints --csv or --json, not both"))?;
    if given.paths.is_empty() {
        return Err(wrong(
            "judge",
            "names nothing to judge: give files, folders or -",
        ));
    }
    if form != Form::Text {
        no_targets(&given.paths)?;
    }
    let entries = entries(&given.paths, &Written::standard());
    let (status, count) = judge_all(&entries, form, out)?;
    if entries.len() > 1 {
        let Count {
            accepted,
            refused,
            unreadable,
        } = count;
        let (accepted, refused, unreadable) =
            (grouped(accepted), grouped(refused), grouped(unreadable));
        note(&format!(
            "{accepted} accepted, {refused} refused, {unreadable} unreadable"
        ));
    }
    Ok(status)
}

/// Refuses a path that is rather a file to write, since `pica forecast` has `--csv FILE`.
fn no_targets(paths: &[OsString]) -> Result<(), Failure> {
    let is_target = |path: &&OsString| {
        let path = Path::new(path);
        let ending = path.extension().and_then(OsStr::to_str);
        matches!(ending, Some("csv" | "json")) && !path.exists()
    };
    let Some(path) = paths.iter().find(is_target) else {
        return Ok(());
    };
    let what = format!(
        "prints on standard output, and there is no {} to judge: to write that file, put > before its name",
        shown(path)
    );
    Err(wrong("judge", &what))
}

fn judge_all(entries: &[Entry], form: Form, out: &mut Output) -> Result<(Status, Count), Failure> {
    let (mut status, mut count) = (Status::Well, Count::default());
    match form {
        Form::Text => {}
        Form::Csv => write!(out, "{}", csv::row(&[vec!["path"], columns(&[])].concat()))?,
        Form::Json => write!(out, "[")?,
    }
    for (k, entry) in entries.iter().enumerate() {
        let name = entry.name();
        let verdict: Verdict = lists::load(entry).and_then(|list| verdict::of(&list));
        match &verdict {
            Ok(_) => count.accepted += 1,
            Err(Problem::Refused(_)) => count.refused += 1,
            Err(Problem::Unreadable(_)) => count.unreadable += 1,
        }
        status = verdict
            .as_ref()
            .map_or_else(Problem::status, |_| Status::Well)
            .max(status);
        match form {
            Form::Text => writeln!(out, "{}: {}", on_one_line(&name), line(&verdict))?,
            Form::Csv => {
                let row = [vec![csv::path(&name)], fields(&verdict, &[])].concat();
                write!(out, "{}", csv::row(&row))?;
            }
            Form::Json => {
                let mut pairs = values(&verdict, Vec::new());
                pairs.insert(0, ("path", Value::Text(name)));
                let comma = if k == 0 { "" } else { "," };
                write!(out, "{comma}\n  {}", object(&pairs))?;
            }
        }
        out.flush()?; // so that the work ends soon after the reader has gone
    }
    if form == Form::Json {
        write!(out, "\n]\n")?;
    }
    Ok((status, count))
}
