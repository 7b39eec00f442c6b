//! `pica forecast`: how short lists can be, and how long they take.

use std::ffi::OsString;
use std::io::{self, Write};

use crate::figures::{Figures, Row, Totals};
use crate::files::Target;
use crate::input::{entries, Entry};
use crate::lists::{self, Problem};
use crate::options::{parse, wrong, Given, Known};
use crate::output::{Output, Written};
use crate::plot;
use crate::progress::Progress;
use crate::rate::Rate;
use crate::status::{Failure, Outcome, Status};
use crate::table::Table;

pub const SUMMARY: &str =
    "how short lists can be, what that saves, and how long they take to replay";

pub const HELP: &str = "\
Usage: pica forecast PATH .. [--rate WORDS_A_SECOND] [--csv FILE] [--plot FILE.svg] [--force]

PATH is a file, a folder (every file below it, in order of name) or - (standard input). For each
list a line tells its words, its register writes, the words of the shortest list that says the same
writes in the same order, and what that saves; then come the totals. A list that is refused or
unreadable gets its line too, and is left out of the totals.

Writes with mask 0 set nothing, aren't counted, and aren't in the shortest list; a list of nothing
else takes no words. All lengths are multiples of 4, as a list's have to be.

No list that says the same writes is shorter: that is proved. Over 4,096 writes are packed in parts,
and where a cut between parts may cost something two bounds are told, at least and at most, which
are proved too. The columns then have what is sure: the longest that the shortest list can be, and
the least that it saves.

  --rate N      words a second, as 1000000 or 0.5: how long the lists take in hours, minutes and
                seconds, as captured and at their shortest. Times of a minute and more are rounded
                to whole seconds, shorter ones to thousandths
  --csv FILE    the figures as comma-separated values in UTF-8, a row for each list. Columns: path,
                verdict (ok, refused or unreadable), words, writes, shortest_at_least,
                shortest_at_most, saved_at_least, saved_at_most (in words); captured_seconds,
                shortest_at_least_seconds, shortest_at_most_seconds (with --rate); meaning,
                what_to_do (of a list that was refused or unreadable). A path that a spreadsheet
                could take for a formula begins with ./
  --plot FILE   a picture for a report, as SVG: the words of each list before and after, and the
                totals. Of over 40 lists the largest 40 are drawn
  --force       overwrites these files if they are there

Example
  pica forecast captures/ --rate 1000000 --csv captures.csv --plot captures.svg
";

const OPTIONS: [Known; 4] = [
    ("--rate", Some("words a second")),
    ("--csv", Some("a file's name")),
    ("--plot", Some("a file's name")),
    ("--force", None),
];

pub fn run(args: &[OsString], out: &mut Output) -> Outcome {
    let given = parse("forecast", args, &OPTIONS)?;
    if given.paths.is_empty() {
        return Err(wrong(
            "forecast",
            "names nothing to forecast: give files, folders or -",
        ));
    }
    let rate = given.value("--rate").map(Rate::parse).transpose();
    let rate = rate.map_err(|what| {
        let text = given
            .value("--rate")
            .unwrap_or_default()
            .to_string_lossy()
            .into_owned();
        wrong(
            "forecast",
            &format!("has a --rate that {what}, and not `{text}`"),
        )
    })?;
    let (csv, plot) = targets(&given)?;
    let written = written(&given, [&csv, &plot])?;
    let has_files = csv.is_some() || plot.is_some();
    let entries = entries(&given.paths, &written);
    let (rows, totals, printed) = forecast_all(&entries, rate, has_files, out);
    if let Some(target) = csv {
        target.write(crate::figures::csv(&rows, rate).as_bytes())?;
    }
    if let Some(target) = plot {
        target.write(plot::picture(&rows, &totals, rate).as_bytes())?;
    }
    printed?;
    Ok(status(&rows))
}

/// The files to write, which are looked at before the work begins.
fn targets(given: &Given) -> Result<(Option<Target>, Option<Target>), Failure> {
    let target = |name| {
        given
            .value(name)
            .map(|path| Target::new(path, given.has("--force")))
            .transpose()
    };
    let (csv, plot) = (target("--csv")?, target("--plot")?);
    match (&csv, &plot) {
        (Some(one), Some(other)) if one.is_same_as(other) => Err(wrong(
            "forecast",
            "has one file for --csv and --plot: give two names",
        )),
        _ => Ok((csv, plot)),
    }
}

/// What this run writes to. Neither a list that is named nor the file that the table goes to is overwritten, not even by force.
fn written(given: &Given, targets: [&Option<Target>; 2]) -> Result<Written, Failure> {
    let mut written = Written::standard();
    for target in targets.into_iter().flatten() {
        for path in &given.paths {
            target.spare("forecast", path)?;
        }
        let seen = target.seen();
        if seen.as_ref().is_some_and(|seen| written.has(seen)) {
            let what = "prints its table into that file too: give another name to --csv and --plot";
            return Err(wrong("forecast", what));
        }
        seen.iter().for_each(|seen| written.add(seen));
    }
    Ok(written)
}

/// Prints a line for each list as soon as it is known. Where standard output is lost the work ends, unless there are files to write.
fn forecast_all(
    entries: &[Entry],
    rate: Option<Rate>,
    has_files: bool,
    out: &mut Output,
) -> (Vec<Row>, Totals, io::Result<()>) {
    let names: Vec<String> = entries.iter().map(Entry::name).collect();
    let table = Table::new(&names);
    let mut progress = Progress::new(entries.len());
    let (mut rows, mut totals) = (Vec::with_capacity(entries.len()), Totals::default());
    let mut printed = out.line(&table.head());
    for (entry, name) in entries.iter().zip(names) {
        if printed.is_err() && !has_files {
            break;
        }
        progress.show(rows.len());
        let found = figures(entry);
        let row = Row { name, found };
        totals.add(&row);
        if out.is_terminal() {
            progress.clear();
        }
        printed = printed.and_then(|()| out.line(&table.row(&row)));
        rows.push(row);
    }
    progress.clear();
    let printed = printed.and_then(|()| end(&table, &rows, &totals, rate, out));
    (rows, totals, printed)
}

/// The totals, and the times.
fn end(
    table: &Table,
    rows: &[Row],
    totals: &Totals,
    rate: Option<Rate>,
    out: &mut Output,
) -> io::Result<()> {
    if rows.len() > 1 {
        writeln!(out, "{}", table.foot(totals))?;
    }
    if let Some(rate) = rate {
        write!(out, "{}", crate::table::hours(&totals.sum, rate))?;
    }
    out.flush()
}

fn figures(entry: &Entry) -> Result<Figures, Problem> {
    let list = lists::load(entry)?;
    Figures::of(&list).map_err(Problem::Refused)
}

fn status(rows: &[Row]) -> Status {
    let worst = rows
        .iter()
        .filter_map(|row| row.found.as_ref().err())
        .map(Problem::status)
        .max();
    worst.unwrap_or(Status::Well)
}
