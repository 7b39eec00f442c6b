//! `pica writes`: a list's writes as CSV.

use std::ffi::OsString;
use std::io::Write;

use crate::files::Target;
use crate::input::{shown, single};
use crate::lists;
use crate::options::{parse, Known};
use crate::output::Output;
use crate::status::{note, Outcome, Status};

pub const SUMMARY: &str = "the register writes of a list, as CSV";

pub const HELP: &str = "\
Usage: pica writes FILE [--out FILE.csv] [--force]

Prints every register write of the list FILE (- for standard input), in order, one a line: id, mask
and value in hexadecimal, after a line with their names:

  id,mask,value
  041,F,00000001

Writes with mask 0 set nothing and are left out; a pair of words 0 that fills a list is one of them.
`pica pack` makes a list of such lines. Lines end in LF.

  --out FILE.csv   writes to that file instead of standard output
  --force          overwrites the file if it is there

Examples
  pica writes list.bin --out list.csv
  pica writes list.bin | grep '^100,'      every write to register 100
";

/// The line with the columns' names.
pub const HEADER: &str = "id,mask,value";

const OPTIONS: [Known; 2] = [("--out", Some("a file's name")), ("--force", None)];

pub fn run(args: &[OsString], out: &mut Output) -> Outcome {
    let given = parse("writes", args, &OPTIONS)?;
    let path = given.only_path("writes", "a list, or -")?;
    let target = given
        .value("--out")
        .map(|to| Target::new(to, given.has("--force")))
        .transpose()?;
    if let Some(target) = &target {
        target.spare("writes", path)?;
    }
    let list = match lists::load(&single(path)) {
        Ok(list) => list,
        Err(problem) => {
            note(&format!("{}: {}", shown(path), problem.text()));
            return Ok(problem.status());
        }
    };
    let mut text = format!("{HEADER}\n");
    for write in &list.writes {
        text.push_str(&format!(
            "{:03X},{:X},{:08X}\n",
            write.id, write.mask, write.value
        ));
    }
    match target {
        Some(target) => target.write(text.as_bytes())?,
        None => out.write_all(text.as_bytes())?,
    }
    Ok(Status::Well)
}
