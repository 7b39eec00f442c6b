//! What the command reads: files, folders, standard input.

use std::ffi::{OsStr, OsString};
use std::fs::{self, File, FileType};
use std::io::{self, ErrorKind, Read};
use std::os::fd::AsFd;
use std::os::unix::fs::FileTypeExt;
use std::path::{Path, PathBuf};

use pica::LIST_LENGTH_MOST;

use crate::closed;
use crate::output::Written;
use crate::status::{note, plain};
use crate::text::on_one_line;

/// The most bytes that a list may have.
pub const BYTES_MOST: u64 = 4 * LIST_LENGTH_MOST as u64;

/// Why there is no list.
#[derive(Debug, PartialEq, Eq)]
pub enum Fault {
    /// More bytes than may be.
    TooLong,
    Unreadable(Reason),
}

/// Why something can't be read, and what to do.
#[derive(Clone, Debug, PartialEq, Eq)]
pub struct Reason {
    pub why: String,
    pub advice: &'static str,
}

impl Reason {
    fn new(why: &str, advice: &'static str) -> Self {
        Self {
            why: why.to_owned(),
            advice,
        }
    }
}

impl From<io::Error> for Reason {
    fn from(error: io::Error) -> Self {
        match error.kind() {
            ErrorKind::NotFound => Self::new("there is no such file", "check its name"),
            ErrorKind::PermissionDenied => {
                Self::new("no permission to read it", "ask its owner for it")
            }
            _ => Self {
                why: plain(&error),
                advice: "read it elsewhere, or copy it and try the copy",
            },
        }
    }
}

/// Why a path can't be read. A link that leads to nothing is there, so that its name needs no check.
fn unreadable(path: &Path, error: io::Error) -> Reason {
    let is_link = fs::symlink_metadata(path).is_ok_and(|seen| seen.is_symlink());
    let leads_nowhere = error.kind() == ErrorKind::NotFound || error.raw_os_error() == Some(ELOOP);
    if is_link && leads_nowhere {
        let advice = "mend the link, or name the file itself";
        return Reason::new("a link that leads to no file", advice);
    }
    error.into()
}

/// Linux's number for links that lead back to themselves.
const ELOOP: i32 = 40;

/// Something that is read as a list.
pub struct Entry {
    path: PathBuf,
    source: Source,
}

enum Source {
    File,
    StandardInput,
    /// Nothing is opened, and this is why.
    Never(Reason),
}

impl Entry {
    fn new(path: impl Into<PathBuf>, source: Source) -> Self {
        Self {
            path: path.into(),
            source,
        }
    }

    /// Its path, as it is printed. Bytes that are no UTF-8 show as U+FFFD.
    pub fn name(&self) -> String {
        self.path.to_string_lossy().into_owned()
    }

    /// Its words, the lowest byte first.
    pub fn words(&self) -> Result<Vec<u32>, Fault> {
        let bytes = self.bytes(BYTES_MOST)?;
        if bytes.len() % 4 != 0 {
            return Err(Fault::Unreadable(within_a_word(bytes.len() as u64)));
        }
        Ok(words_of(&bytes).collect())
    }

    /// Hands its words on as they are read, some at a time, for as long as more are wanted, and gives how many there were.
    pub fn each(&self, mut wants_more: impl FnMut(&[u32]) -> bool) -> Result<u64, Reason> {
        let mut file = self.open()?;
        let mut buffer = vec![0; 1 << 16];
        let (mut total, mut kept) = (0, 0);
        loop {
            let got = match file.read(&mut buffer[kept..]) {
                Ok(got) => got,
                Err(error) if error.kind() == ErrorKind::Interrupted => continue,
                Err(error) => return Err(error.into()),
            };
            total += got as u64;
            kept += got;
            let words: Vec<u32> = words_of(&buffer[..kept]).collect();
            if !wants_more(&words) {
                return Ok(total / 4);
            }
            buffer.copy_within(4 * words.len()..kept, 0);
            kept -= 4 * words.len();
            if got == 0 {
                break;
            }
        }
        if kept == 0 {
            Ok(total / 4)
        } else {
            Err(within_a_word(total))
        }
    }

    /// Its bytes. Where there are more, nothing is read beyond: a file tells by its length, all else by one byte too many.
    fn bytes(&self, most: u64) -> Result<Vec<u8>, Fault> {
        let file = self.open().map_err(Fault::Unreadable)?;
        let unreadable = |error: io::Error| Fault::Unreadable(error.into());
        let seen = file.metadata().map_err(unreadable)?;
        if seen.is_file() && seen.len() > most && !matches!(self.source, Source::StandardInput) {
            return Err(Fault::TooLong);
        }
        let mut bytes = Vec::new();
        file.take(most + 1)
            .read_to_end(&mut bytes)
            .map_err(unreadable)?;
        if bytes.len() as u64 > most {
            return Err(Fault::TooLong);
        }
        Ok(bytes)
    }

    /// The file, which may be a pipe or a device where it was named as such.
    pub fn open(&self) -> Result<File, Reason> {
        let file = match &self.source {
            Source::Never(reason) => return Err(reason.clone()),
            Source::File => {
                File::open(&self.path).map_err(|error| unreadable(&self.path, error))?
            }
            Source::StandardInput if closed::standard_input() => {
                return Err(Reason::new(
                    "standard input is closed",
                    "name a file, or give one with <",
                ));
            }
            // as a file, because std's own standard input passes over a descriptor that can't be read
            Source::StandardInput => File::from(io::stdin().as_fd().try_clone_to_owned()?),
        };
        if file.metadata()?.is_dir() {
            return Err(Reason::new("a folder", "name a file in it"));
        }
        Ok(file)
    }
}

fn within_a_word(bytes: u64) -> Reason {
    Reason {
        why: format!("ends within a word ({bytes} bytes)"),
        advice: "a list is whole words of four bytes: capture it again",
    }
}

/// The whole words of some bytes, the lowest byte first.
fn words_of(bytes: &[u8]) -> impl Iterator<Item = u32> + '_ {
    let word = |four: &[u8]| {
        four.iter()
            .rev()
            .fold(0, |word, &byte| word << 8 | u32::from(byte))
    };
    bytes.chunks_exact(4).map(word)
}

/// One path, which is no folder, or `-`.
pub fn single(path: &OsStr) -> Entry {
    let source = if path == "-" {
        Source::StandardInput
    } else {
        Source::File
    };
    Entry::new(path, source)
}

/// Everything that the paths name, folders taken apart, in order. What a folder has of this run's own output isn't read.
pub fn entries(paths: &[OsString], written: &Written) -> Vec<Entry> {
    let mut found = Vec::new();
    for (k, path) in paths.iter().enumerate() {
        if path == "-" && paths[..k].contains(path) {
            let reason = Reason::new("standard input can be read only once", "name - once");
            found.push(Entry::new(path, Source::Never(reason)));
        } else if path != "-" && Path::new(path).is_dir() {
            let before = found.len();
            below(Path::new(path), written, &mut found);
            if found.len() == before {
                note(&format!(
                    "{}: no file in this folder, so nothing is read there",
                    shown(path)
                ));
            }
        } else {
            found.push(single(path));
        }
    }
    found
}

/// Every file below a folder, in the byte order of the path's parts. A link to a folder isn't followed, so that nothing is met twice
/// and no walk is endless; what is neither file nor folder isn't opened, because that may wait for ever.
fn below(folder: &Path, written: &Written, found: &mut Vec<Entry>) {
    let mut left = vec![folder.to_owned()];
    while let Some(path) = left.pop() {
        match kind(&path, path == folder, written) {
            Ok(Kind::File) => found.push(Entry::new(path, Source::File)),
            Ok(Kind::Folder) => match inside(&path) {
                Ok(paths) => left.extend(paths.into_iter().rev()),
                Err(error) => found.push(Entry::new(path, Source::Never(error.into()))),
            },
            Ok(Kind::Link) => note(&format!(
                "{}: a link to a folder, not followed",
                shown(&path)
            )),
            Ok(Kind::Output) => note(&format!(
                "{}: this run's own output, not read",
                shown(&path)
            )),
            Ok(Kind::Other(what)) => {
                let reason = Reason::new(what, "name it by itself to read it");
                found.push(Entry::new(path, Source::Never(reason)));
            }
            Err(error) => {
                let reason = unreadable(&path, error);
                found.push(Entry::new(path, Source::Never(reason)));
            }
        }
    }
}

enum Kind {
    File,
    Folder,
    /// To a folder.
    Link,
    /// Of this run.
    Output,
    Other(&'static str),
}

fn kind(path: &Path, named: bool, written: &Written) -> io::Result<Kind> {
    let target = fs::metadata(path)?;
    let linked = fs::symlink_metadata(path)?.is_symlink() && !named;
    Ok(match target.file_type() {
        folder if folder.is_dir() && linked => Kind::Link,
        folder if folder.is_dir() => Kind::Folder,
        _ if written.has(&target) => Kind::Output,
        file if file.is_file() => Kind::File,
        other => Kind::Other(special(other)),
    })
}

fn special(kind: FileType) -> &'static str {
    match kind {
        kind if kind.is_fifo() => "a pipe and no file",
        kind if kind.is_socket() => "a socket and no file",
        _ => "a device and no file",
    }
}

fn inside(folder: &Path) -> io::Result<Vec<PathBuf>> {
    let names = fs::read_dir(folder)?.map(|entry| Ok(entry?.file_name()));
    let mut names = names.collect::<io::Result<Vec<_>>>()?;
    names.sort();
    Ok(names.into_iter().map(|name| folder.join(name)).collect())
}

/// A path as text on one line.
pub fn shown(path: impl AsRef<OsStr>) -> String {
    on_one_line(&path.as_ref().to_string_lossy())
}
