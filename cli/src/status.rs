//! How a run ends: the exit status, and what is said of a run that couldn't go on.

use std::io::{self, Write};
use std::process::ExitCode;

use crate::text::on_one_line;

/// The exit status; the worst of a batch counts.
#[derive(Clone, Copy, Debug, PartialEq, Eq, PartialOrd, Ord)]
pub enum Status {
    /// 0: all well.
    Well,
    /// 1: something was refused.
    Refused,
    /// 2: something was unreadable, was used wrongly, or output was lost.
    Unreadable,
}

/// Why a run couldn't go on. Each ends it with status 2.
#[derive(Debug)]
pub enum Failure {
    /// Wrong usage: what is wrong, and what to do.
    Usage(String),
    /// Something else, said whole.
    Stopped(String),
    /// Standard output took no more. `?` on what is written to `Output` gives this.
    Lost(io::Error),
}

impl From<io::Error> for Failure {
    fn from(error: io::Error) -> Self {
        Self::Lost(error)
    }
}

/// What a subcommand gives back.
pub type Outcome = Result<Status, Failure>;

/// The exit status of a run, after what is left to say of it has been said on standard error.
pub fn close(outcome: Outcome, flushed: io::Result<()>) -> ExitCode {
    let outcome = outcome.and_then(|status| flushed.map(|()| status).map_err(Failure::Lost));
    let status = match outcome {
        Ok(status) => status,
        Err(failure) => {
            tell(&failure);
            Status::Unreadable
        }
    };
    ExitCode::from(status as u8)
}

/// A reader that went away (`| head -1`) knows why, and is told nothing.
fn tell(failure: &Failure) {
    match failure {
        Failure::Usage(what) | Failure::Stopped(what) => note(what),
        Failure::Lost(error) if error.kind() == io::ErrorKind::BrokenPipe => {}
        Failure::Lost(error) => note(&format!(
            "output was lost: standard output took no more: {}",
            plain(error)
        )),
    }
}

/// A line on standard error. Where that is closed too there is nobody left to tell.
pub fn note(what: &str) {
    let _ = writeln!(io::stderr(), "pica: {}", on_one_line(what));
}

/// An error of the system in words, without its number.
pub fn plain(error: &io::Error) -> String {
    let text = error.to_string();
    match text.split_once(" (os error") {
        Some((words, _)) => words.to_owned(),
        None => text,
    }
}
