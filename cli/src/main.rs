//! The command `pica`: command lists of the PICA200 judged, forecast, shown, packed and unpacked.

#![deny(unsafe_code)]

mod closed;
mod csv;
mod figures;
mod files;
mod forecast;
mod help;
mod input;
mod json;
mod judge;
mod labels;
mod lines;
mod lists;
mod options;
mod output;
mod pack;
mod parts;
mod pieces;
mod plot;
mod progress;
mod rate;
mod refusals;
mod show;
mod status;
mod svg;
mod table;
mod text;
mod verdict;
mod writes;

use std::ffi::OsString;
use std::process::ExitCode;

use output::Output;
use status::{Failure, Outcome};

/// A subcommand.
pub struct Command {
    pub name: &'static str,
    /// One line, for the list of subcommands.
    pub summary: &'static str,
    /// The whole help text: usage, options, an example.
    pub help: &'static str,
    /// Gets the arguments after the subcommand's name.
    pub run: Run,
}

/// Every subcommand. To add one: a file beside this one with `SUMMARY`, `HELP` and `run`, its `mod` line above, and a line here.
/// Help is answered for it, and its outcome becomes the exit status.
pub const COMMANDS: [Command; 6] = [
    command("judge", judge::SUMMARY, judge::HELP, judge::run),
    command("pieces", pieces::SUMMARY, pieces::HELP, pieces::run),
    command("forecast", forecast::SUMMARY, forecast::HELP, forecast::run),
    command("show", show::SUMMARY, show::HELP, show::run),
    command("writes", writes::SUMMARY, writes::HELP, writes::run),
    command("pack", pack::SUMMARY, pack::HELP, pack::run),
];

type Run = fn(&[OsString], &mut Output) -> Outcome;

const fn command(
    name: &'static str,
    summary: &'static str,
    help: &'static str,
    run: Run,
) -> Command {
    Command {
        name,
        summary,
        help,
        run,
    }
}

fn main() -> ExitCode {
    let args: Vec<OsString> = std::env::args_os().skip(1).collect();
    let mut out = Output::standard();
    let outcome = dispatch(&args, &mut out);
    let flushed = out.finish();
    status::close(outcome, flushed)
}

fn dispatch(args: &[OsString], out: &mut Output) -> Outcome {
    let Some((first, rest)) = args.split_first() else {
        return help::overview(out);
    };
    match first.to_str() {
        Some("--help" | "-h") => help::overview(out),
        Some("help") => help::on(rest, out),
        Some("--version" | "-V" | "version") => help::version(out),
        name => match name.and_then(find) {
            Some(command) if options::asks_help(rest) => help::of(command, out),
            Some(command) => (command.run)(rest, out),
            None => Err(unknown(&first.to_string_lossy())),
        },
    }
}

fn find(name: &str) -> Option<&'static Command> {
    COMMANDS.iter().find(|command| command.name == name)
}

fn unknown(name: &str) -> Failure {
    let names = COMMANDS.iter().map(|command| command.name);
    let hint = match options::nearest(name, names) {
        Some(near) => format!("did you mean `pica {near}`?"),
        None => String::from("`pica --help` lists the subcommands"),
    };
    if name.starts_with('-') {
        return Failure::Usage(format!(
            "the subcommand comes first, and {name} is none: {hint}"
        ));
    }
    Failure::Usage(format!("there is no subcommand {name}: {hint}"))
}

#[cfg(test)]
mod tests {
    use super::*;
    use crate::status::Status;

    #[test]
    fn subcommands_have_names_of_their_own_and_whole_help() {
        for (k, command) in COMMANDS.iter().enumerate() {
            assert!(COMMANDS[..k].iter().all(|other| other.name != command.name));
            assert!(command.help.contains(&format!("pica {}", command.name)));
            assert!(command.help.contains("Example"), "{}", command.name);
            assert!(command
                .help
                .lines()
                .chain([command.summary])
                .all(|line| line.chars().count() <= 100));
        }
        assert!(Status::Unreadable > Status::Refused && Status::Refused > Status::Well);
    }
}
