//! What the tests of the built command share: folders of their own, lists, and runs of the command.

#![allow(dead_code)] // each test file takes what it needs

pub mod check;

use std::ffi::OsStr;
use std::fs;
use std::io::Write;
use std::os::fd::AsRawFd;
use std::os::unix::net::UnixListener;
use std::path::{Path, PathBuf};
use std::process::{Command, Stdio};

/// How a run ended and what it printed.
#[derive(Debug)]
pub struct Ran {
    pub status: Option<i32>,
    pub bytes: Vec<u8>,
    pub out: String,
    pub err: String,
}

/// The built command.
pub fn command<S: AsRef<OsStr>>(args: &[S]) -> Command {
    let mut command = Command::new(env!("CARGO_BIN_EXE_pica"));
    command.args(args).stdin(Stdio::null());
    command
}

/// Runs it with nothing on standard input.
pub fn pica<S: AsRef<OsStr>>(args: &[S]) -> Ran {
    ended(&mut command(args))
}

/// Runs it in a shell, where it is `"$0"`, and gives what comes out of that.
pub fn shell<S: AsRef<OsStr>>(script: &str, args: &[S]) -> Ran {
    let mut shell = Command::new("bash");
    shell
        .args(["-c", script, env!("CARGO_BIN_EXE_pica")])
        .args(args);
    ended(shell.stdin(Stdio::null()))
}

fn ended(command: &mut Command) -> Ran {
    let output = command.output().expect("the command starts");
    ran(output)
}

/// Runs it with these pieces on standard input, with a pause between them.
pub fn pica_fed<S: AsRef<OsStr>>(args: &[S], pieces: &[&[u8]]) -> Ran {
    let piped = command(args)
        .stdin(Stdio::piped())
        .stdout(Stdio::piped())
        .stderr(Stdio::piped())
        .spawn();
    let mut child = piped.expect("the command starts");
    let mut input = child.stdin.take().expect("standard input is piped");
    for piece in pieces {
        // a command that has seen enough reads no more, which is for the test to judge
        let _ = input.write_all(piece).and_then(|()| input.flush());
        std::thread::sleep(std::time::Duration::from_millis(20));
    }
    drop(input);
    ran(child.wait_with_output().expect("the command ends"))
}

fn ran(output: std::process::Output) -> Ran {
    let text = |bytes: &[u8]| String::from_utf8_lossy(bytes).into_owned();
    let (out, err) = (text(&output.stdout), text(&output.stderr));
    assert!(!err.contains("panicked"), "{err}");
    Ran {
        status: output.status.code(),
        bytes: output.stdout,
        out,
        err,
    }
}

/// A folder of the test's own, which goes with it.
pub struct Folder(pub PathBuf);

impl Folder {
    pub fn new(name: &str) -> Self {
        let path = Path::new(env!("CARGO_TARGET_TMPDIR")).join(name);
        let _ = fs::remove_dir_all(&path);
        fs::create_dir_all(&path).expect("a folder for the test");
        Self(path)
    }

    /// The path of something in it.
    pub fn path(&self, name: impl AsRef<Path>) -> PathBuf {
        self.0.join(name)
    }

    pub fn bytes(&self, name: impl AsRef<Path>, bytes: &[u8]) -> PathBuf {
        let path = self.path(name);
        fs::create_dir_all(path.parent().expect("it is in the folder"))
            .expect("a folder for the file");
        fs::write(&path, bytes).expect("a file for the test");
        path
    }

    /// A list.
    pub fn list(&self, name: impl AsRef<Path>, words: &[u32]) -> PathBuf {
        self.bytes(name, &bytes_of(words))
    }
}

impl Folder {
    /// A socket. Its path may not be long, so that it is bound by a short one.
    pub fn socket(&self, name: &str) -> UnixListener {
        let open = fs::File::open(&self.0).expect("the folder is there");
        let short = format!("/proc/self/fd/{}/{name}", open.as_raw_fd());
        UnixListener::bind(short).expect("a socket for the test")
    }
}

impl Drop for Folder {
    fn drop(&mut self) {
        let _ = fs::remove_dir_all(&self.0);
    }
}

pub fn bytes_of(words: &[u32]) -> Vec<u8> {
    words.iter().flat_map(|word| word.to_le_bytes()).collect()
}

/// A list of one command a write, all of mask F: two words each, and a pair where that is no multiple of 4.
pub fn apart(ids: impl IntoIterator<Item = u32>) -> Vec<u32> {
    let commands = ids
        .into_iter()
        .zip(1..)
        .flat_map(|(id, value)| [value, 0x000F_0000 | id]);
    filled(commands.collect())
}

/// A list with words 0 behind it to a multiple of 4.
pub fn filled(mut words: Vec<u32>) -> Vec<u32> {
    words.resize(words.len().next_multiple_of(4), 0);
    words
}

/// The repository's sample lists.
pub fn example(name: &str) -> PathBuf {
    Path::new(env!("CARGO_MANIFEST_DIR"))
        .join("../examples")
        .join(name)
}

/// Numbers that are the same in every run.
pub struct Random(pub u64);

impl Random {
    pub fn next(&mut self) -> u64 {
        self.0 ^= self.0 << 13;
        self.0 ^= self.0 >> 7;
        self.0 ^= self.0 << 17;
        self.0
    }

    pub fn below(&mut self, end: u64) -> u64 {
        self.next() % end
    }
}
