//! `pica pack`: the shortest list that says the writes of a CSV.

use std::ffi::OsString;
use std::io::Write;

use pica::{Refusal, LIST_LENGTH_MOST};

use crate::files::Target;
use crate::input::{shown, single};
use crate::lines::{self, Numbered};
use crate::options::{parse, wrong, Known};
use crate::output::Output;
use crate::parts::Run;
use crate::refusals;
use crate::status::{note, Failure, Outcome, Status};
use crate::text::grouped;
use crate::verdict::counted;

pub const SUMMARY: &str = "the shortest list that says the writes of a CSV";

pub const HELP: &str = "\
Usage: pica pack FILE.csv [--out FILE.bin] [--force]

Packs the writes of FILE.csv (- for standard input) into the shortest list that says them. A line
is one write, as `pica writes` prints them: id, mask and value in hexadecimal, as 041,F,00000001;
upper or lower case, with 0x before or h after a number if you like, spaces around it too. The line
id,mask,value may stand first; empty lines and lines that begin with # are passed over. Any other
line ends the work, and is told by its number.

A list's words are a multiple of 4 in number: where those of its commands are not, one pair of words
0 stands behind them. Writes with mask 0 set nothing. They are checked like all others and left out,
and it is said on standard error how many.

Over 4,096 writes are packed in parts that are joined. Where that may cost something it is said on
standard error how many words at most; where that isn't said the list is the shortest.

  --out FILE.bin   the file to write; without it the list goes to standard output, unless that is
                   a terminal
  --force          overwrites the file if it is there

Example
  pica writes list.bin > list.csv
  pica pack list.csv --out shortest.bin
";

const OPTIONS: [Known; 2] = [("--out", Some("a file's name")), ("--force", None)];

pub fn run(args: &[OsString], out: &mut Output) -> Outcome {
    let given = parse("pack", args, &OPTIONS)?;
    let path = given.only_path("pack", "a CSV of writes, or -")?;
    let target = given
        .value("--out")
        .map(|to| Target::new(to, given.has("--force")))
        .transpose()?;
    if let Some(target) = &target {
        target.spare("pack", path)?;
    }
    if target.is_none() && out.is_terminal() {
        return Err(wrong(
            "pack",
            "prints no list on a terminal: give --out FILE.bin",
        ));
    }
    let told = |what: String| Failure::Stopped(format!("{}: {what}", shown(path)));
    let file = single(path)
        .open()
        .map_err(|reason| told(format!("unreadable: {}; {}", reason.why, reason.advice)))?;
    let writes = lines::read(file).map_err(told)?;
    let list = match packed(&writes) {
        Ok(list) => list,
        Err(what) => {
            note(&format!("{}: {what}", shown(path)));
            return Ok(Status::Refused);
        }
    };
    let bytes: Vec<u8> = list.iter().flat_map(|word| word.to_le_bytes()).collect();
    match target {
        Some(target) => target.write(&bytes)?,
        None => out.write_all(&bytes)?,
    }
    Ok(Status::Well)
}

/// The list, or why it is refused. Where it may be over the shortest that is said, and how many writes it leaves out.
fn packed(writes: &[Numbered]) -> Result<Vec<u32>, String> {
    let too_long = |what: &str| {
        let number = Refusal::LIST_TOO_LONG;
        format!("refused {number}: {what}; cut the CSV, and pack each piece as a list of its own")
    };
    // each command has a header beside its writes
    if lines::kept(writes) >= LIST_LENGTH_MOST {
        return Err(too_long(
            "over 65,535 writes, which no list of 65,536 words says",
        ));
    }
    let plain: Vec<_> = writes.iter().map(|numbered| numbered.write).collect();
    let packed = Run::new(&plain).and_then(|run| run.packed());
    let (list, over) = packed.map_err(|refusal| refused(refusal, writes))?;
    let words = grouped(list.len() as u64);
    if list.len() > LIST_LENGTH_MOST {
        return Err(too_long(&format!(
            "the list has {words} words, and 65,536 is the most"
        )));
    }
    let dropped = (writes.len() - lines::kept(writes)) as u64;
    if dropped > 0 {
        let dropped = counted(dropped, "write");
        note(&format!(
            "{dropped} with mask 0 left out: mask 0 sets nothing"
        ));
    }
    if over > 0 {
        note(&format!(
            "over 4,096 writes, packed in parts: {words} words, at most {over} more than the shortest list"
        ));
    }
    Ok(list)
}

/// A refusal by the line of the write that it names.
fn refused(refusal: Refusal, writes: &[Numbered]) -> String {
    let (number, meaning) = (refusal.number, refusals::meaning(refusal.number));
    let advice = match number {
        Refusal::ID_ABOVE_2FF => "ids go from 000 to 2FF",
        Refusal::JUMP_REGISTER => "leave the line out: a list can't be packed across a jump",
        Refusal::PORT_MASK => {
            "give it the mask F: a fog or light table is written whole words only"
        }
        Refusal::MASK_ABOVE_15 => "masks go from 0 to F",
        _ => refusals::advice(number),
    };
    match writes.get(refusal.place as usize) {
        Some(write) => format!(
            "line {}: refused {number}: {meaning}; {advice}",
            grouped(write.line)
        ),
        None => format!("refused {number}: {meaning}; {advice}"),
    }
}
