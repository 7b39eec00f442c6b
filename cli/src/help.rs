//! `pica --help`, `pica help SUBCOMMAND`, `pica --version`.

use std::ffi::OsString;
use std::io::Write;

use crate::output::Output;
use crate::status::{Outcome, Status};
use crate::{find, unknown, Command, COMMANDS};

const STATUS: &str = "\
Exit status
  0  all well
  1  something was refused
  2  something couldn't be read, was used wrongly, or output was lost (a full disk, a closed pipe)
";

pub fn overview(out: &mut Output) -> Outcome {
    writeln!(
        out,
        "pica: command lists of the PICA200 judged, forecast, shown, packed and unpacked.\n"
    )?;
    writeln!(out, "Usage: pica SUBCOMMAND ..\n")?;
    for command in &COMMANDS {
        writeln!(out, "  {:<9} {}", command.name, command.summary)?;
    }
    write!(
        out,
        "
A list is a file of 32-bit words, the lowest byte first: a multiple of 4, and at most 65,536.
`pica SUBCOMMAND --help` says more on each; `pica --version` gives the version.

Example
  pica judge captures/          judges every file below the folder captures

{STATUS}"
    )?;
    Ok(Status::Well)
}

pub fn of(command: &Command, out: &mut Output) -> Outcome {
    write!(
        out,
        "pica {}: {}\n\n{}\n{STATUS}",
        command.name, command.summary, command.help
    )?;
    Ok(Status::Well)
}

/// `pica help` with or without a subcommand's name.
pub fn on(args: &[OsString], out: &mut Output) -> Outcome {
    let Some(name) = args.first() else {
        return overview(out);
    };
    match name.to_str().and_then(find) {
        Some(command) => of(command, out),
        None => Err(unknown(&name.to_string_lossy())),
    }
}

pub fn version(out: &mut Output) -> Outcome {
    writeln!(out, "pica {}", env!("CARGO_PKG_VERSION"))?;
    Ok(Status::Well)
}
