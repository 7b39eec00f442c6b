//! Standard output that tells when it is lost.
//!
//! `std::io::stdout` passes over a closed descriptor and over what can't be flushed at the end. So the descriptor is written to as a
//! file, and each failure comes back.

use std::fs::{File, Metadata};
use std::io::{self, BufWriter, ErrorKind, IsTerminal, Write};
use std::os::fd::{AsFd, BorrowedFd};
use std::os::unix::fs::MetadataExt;

use crate::closed;

pub struct Output {
    to: Option<BufWriter<File>>,
}

impl Output {
    pub fn standard() -> Self {
        let open = if closed::standard_output() {
            None
        } else {
            io::stdout().as_fd().try_clone_to_owned().ok()
        };
        Self {
            to: open.map(|descriptor| BufWriter::with_capacity(1 << 16, File::from(descriptor))),
        }
    }

    pub fn is_terminal(&self) -> bool {
        self.to
            .as_ref()
            .is_some_and(|to| to.get_ref().is_terminal())
    }

    /// A line, handed on at once, so that work ends soon after the reader has gone.
    pub fn line(&mut self, line: &str) -> io::Result<()> {
        writeln!(self, "{line}")?;
        self.flush()
    }

    /// What is left in the buffer. Output that nothing was written to isn't lost.
    pub fn finish(&mut self) -> io::Result<()> {
        self.to.as_mut().map_or(Ok(()), Write::flush)
    }

    fn open(&mut self) -> io::Result<&mut BufWriter<File>> {
        self.to
            .as_mut()
            .ok_or_else(|| io::Error::new(ErrorKind::NotConnected, "it is closed"))
    }
}

impl Write for Output {
    fn write(&mut self, bytes: &[u8]) -> io::Result<usize> {
        self.open()?.write(bytes)
    }

    fn flush(&mut self) -> io::Result<()> {
        self.open()?.flush()
    }
}

/// The files that a run writes to, by device and number. Where a folder has one of them it is no list of that folder's.
#[derive(Default)]
pub struct Written(Vec<(u64, u64)>);

impl Written {
    /// Standard output and standard error, where they go to files.
    pub fn standard() -> Self {
        let seen = |stream: BorrowedFd| File::from(stream.try_clone_to_owned()?).metadata();
        let mut written = Self::default();
        let seen = [seen(io::stdout().as_fd()), seen(io::stderr().as_fd())];
        seen.iter().flatten().for_each(|seen| written.add(seen));
        written
    }

    /// Adds what is a file.
    pub fn add(&mut self, seen: &Metadata) {
        if seen.is_file() {
            self.0.push((seen.dev(), seen.ino()));
        }
    }

    pub fn has(&self, seen: &Metadata) -> bool {
        self.0.contains(&(seen.dev(), seen.ino()))
    }
}
