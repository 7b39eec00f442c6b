//! Files that the command writes: never over one that is there, unless it is told to, and never by halves.

use std::ffi::OsStr;
use std::fs::{self, File, Metadata, OpenOptions};
use std::io::{self, ErrorKind, Write};
use std::os::unix::ffi::OsStrExt;
use std::os::unix::fs::{FileTypeExt, MetadataExt};
use std::path::{Path, PathBuf};

use crate::input::shown;
use crate::options::wrong;
use crate::status::{plain, Failure};

/// A file to be written. It is looked at before the work begins, and written in one go after it.
pub struct Target {
    /// What is named, with links followed, so that two names of one file are the same.
    path: PathBuf,
    name: String,
    force: bool,
    /// A pipe or a device, which has no contents to lose and is written to as it is.
    is_stream: bool,
}

impl Target {
    /// Refuses what can't be written, while nothing is lost by it.
    pub fn new(path: &OsStr, force: bool) -> Result<Self, Failure> {
        let name = shown(path);
        if path == "-" || path.is_empty() {
            return Err(Failure::Usage(format!(
                "`{name}` is no file's name: give one to write to"
            )));
        }
        if path.as_bytes().ends_with(b"/") {
            return Err(Failure::Usage(format!(
                "{name} is a folder's name: give a file's name"
            )));
        }
        let path = resolved(Path::new(path));
        let mut target = Self {
            path,
            name,
            force,
            is_stream: false,
        };
        if let Some(seen) = target.seen() {
            let kind = seen.file_type();
            target.is_stream = kind.is_fifo() || kind.is_char_device();
            if !target.is_stream && !kind.is_file() {
                let what = if kind.is_dir() { "folder" } else { "device" };
                return Err(target.stopped(&format!("is a {what}: give a file's name")));
            }
        }
        if !target.is_stream {
            target.refuse_what_is_there()?;
            let (probe, _) = target.beside()?;
            let _ = fs::remove_file(probe);
        }
        Ok(target)
    }

    pub fn is_same_as(&self, other: &Self) -> bool {
        self.path == other.path
    }

    /// Refuses to write over what is read: its name is there by mistake, even with --force.
    pub fn spare(&self, command: &str, path: &OsStr) -> Result<(), Failure> {
        let is_this = |read: Metadata| {
            self.seen().is_some_and(|own| {
                own.is_file() && (own.dev(), own.ino()) == (read.dev(), read.ino())
            })
        };
        if path != "-" && fs::metadata(path).is_ok_and(is_this) {
            let what = format!(
                "reads {} and would write over it: give another name to write to",
                shown(path)
            );
            return Err(wrong(command, &what));
        }
        Ok(())
    }

    /// What is there under its name.
    pub fn seen(&self) -> Option<Metadata> {
        fs::metadata(&self.path).ok()
    }

    /// Writes it whole, or leaves what was there.
    pub fn write(&self, bytes: &[u8]) -> Result<(), Failure> {
        if self.is_stream {
            let open = OpenOptions::new().write(true).open(&self.path);
            return open
                .and_then(|mut file| file.write_all(bytes))
                .map_err(|error| self.lost(&error));
        }
        let (unfinished, mut file) = self.beside()?;
        let written = file
            .write_all(bytes)
            .and_then(|()| settled(&file))
            .map_err(|error| self.lost(&error));
        let moved = written.and_then(|()| self.take_over(&unfinished));
        if moved.is_err() {
            let _ = fs::remove_file(&unfinished);
        }
        moved
    }

    /// Gives the finished file its name. Where nothing may be overwritten the name is taken first, which fails if somebody else has
    /// taken it meanwhile.
    fn take_over(&self, finished: &Path) -> Result<(), Failure> {
        if !self.force {
            self.refuse_what_is_there()?;
            File::create_new(&self.path).map_err(|error| self.lost(&error))?;
        } else if let Some(seen) = self.seen() {
            self.keep_permissions(finished, &seen)?;
        }
        fs::rename(finished, &self.path).map_err(|error| {
            if !self.force {
                let _ = fs::remove_file(&self.path);
            }
            self.lost(&error)
        })
    }

    /// Whoever may read what is overwritten may read what comes in its place, and nobody else. Not every file system knows the
    /// difference, and where there is none nothing is asked of it.
    fn keep_permissions(&self, finished: &Path, seen: &Metadata) -> Result<(), Failure> {
        let new = fs::metadata(finished).map_err(|error| self.lost(&error))?;
        if new.permissions() == seen.permissions() {
            return Ok(());
        }
        fs::set_permissions(finished, seen.permissions()).map_err(|error| self.lost(&error))
    }

    fn refuse_what_is_there(&self) -> Result<(), Failure> {
        match fs::symlink_metadata(&self.path) {
            Err(error) if error.kind() == ErrorKind::NotFound => Ok(()),
            Err(error) => Err(self.lost(&error)),
            Ok(_) if self.force => Ok(()),
            Ok(_) => {
                Err(self.stopped("is there already: give another name, or --force to overwrite it"))
            }
        }
    }

    /// A new file beside the target. Its name is short, because the target's may be as long as a name can be, and where an earlier
    /// run was ended and has left one, another is taken.
    fn beside(&self) -> Result<(PathBuf, File), Failure> {
        let name = |k| format!(".pica-unfinished-{}-{k}", std::process::id());
        let mut made = (0..9).map(|k| {
            let path = self.path.with_file_name(name(k));
            File::create_new(&path).map(|file| (path, file))
        });
        let is_taken = |made: &io::Result<_>| matches!(made, Err(error) if error.kind() == ErrorKind::AlreadyExists);
        let first = made.find(|made| !is_taken(made));
        let first = first.unwrap_or_else(|| Err(ErrorKind::AlreadyExists.into()));
        first.map_err(|error| self.lost(&error))
    }

    fn lost(&self, error: &io::Error) -> Failure {
        match error.kind() {
            ErrorKind::NotFound => {
                self.stopped("can't be written: there is no such folder; make it, or give another")
            }
            ErrorKind::PermissionDenied => {
                self.stopped("can't be written: no permission; give another folder")
            }
            _ => self.stopped(&format!(
                "can't be written: {}; give another name or folder",
                plain(error)
            )),
        }
    }

    fn stopped(&self, what: &str) -> Failure {
        Failure::Stopped(format!("{} {what}", self.name))
    }
}

/// A path with links followed, also where the file isn't there yet.
fn resolved(path: &Path) -> PathBuf {
    let in_folder = || {
        let folder = path
            .parent()
            .filter(|folder| !folder.as_os_str().is_empty());
        let folder = fs::canonicalize(folder.unwrap_or(Path::new("."))).ok()?;
        Some(folder.join(path.file_name()?))
    };
    let whole = fs::canonicalize(path).ok();
    whole.or_else(in_folder).unwrap_or_else(|| path.to_owned())
}

/// Waits until the bytes are on the disk, because a full one may tell only then. Not every file system can do that.
fn settled(file: &File) -> io::Result<()> {
    match file.sync_all() {
        Err(error)
            if matches!(
                error.kind(),
                ErrorKind::InvalidInput | ErrorKind::Unsupported
            ) =>
        {
            Ok(())
        }
        done => done,
    }
}
