//! Makes the example captures, and the parts of one of them: small lists that look like those of a game, with the habits of real
//! drivers in them. Each register
//! that a game's call sets gets a command of its own, also where the next id follows; state is set again though nothing changed;
//! tables and shader code come in pieces. README.md says what each capture is. The same bytes come out on every machine: values
//! are whole numbers, or floats by single additions, multiplications and divisions.
//!
//!     captures FOLDER           writes them into the folders captures and pieces of this one
//!     captures --check FOLDER   compares: status 1 where one is missing or different, or another file is there
//!
//! `examples/make` builds and runs this for examples.

mod driver;
mod scenes;

use std::path::Path;
use std::{env, fs, process::ExitCode};

fn bytes_of(words: &[u32]) -> Vec<u8> {
    words.iter().flat_map(|word| word.to_le_bytes()).collect()
}

type Files = Vec<(&'static str, Vec<u32>)>;

/// Each folder with its files.
fn made() -> [(&'static str, Files); 2] {
    [
        ("captures", scenes::captures()),
        ("pieces", scenes::pieces()),
    ]
}

fn write(folder: &Path, made: &Files) -> Result<(), String> {
    for (name, words) in made {
        let path = folder.join(name);
        fs::write(&path, bytes_of(words)).map_err(|e| format!("{}: {e}", path.display()))?;
    }
    Ok(())
}

/// The files of the folder, by name.
fn files(folder: &Path) -> Result<Vec<String>, String> {
    let told = |e| format!("{}: {e}", folder.display());
    let mut names = Vec::new();
    for entry in fs::read_dir(folder).map_err(told)? {
        names.push(
            entry
                .map_err(told)?
                .file_name()
                .to_string_lossy()
                .into_owned(),
        );
    }
    names.sort();
    Ok(names)
}

fn check(folder: &Path, made: &Files) -> Result<(), String> {
    for (name, words) in made {
        let path = folder.join(name);
        let there = fs::read(&path).map_err(|e| format!("{}: {e}", path.display()))?;
        if there != bytes_of(words) {
            return Err(format!(
                "{} is not what examples/make makes",
                path.display()
            ));
        }
    }
    let names: Vec<&str> = made.iter().map(|(name, _)| *name).collect();
    match files(folder)?
        .iter()
        .find(|name| !names.contains(&name.as_str()))
    {
        None => Ok(()),
        Some(other) => Err(format!(
            "{} has {other}, which examples/make doesn't make",
            folder.display()
        )),
    }
}

type Task = fn(&Path, &Files) -> Result<(), String>;

fn in_each(folder: &str, task: Task) -> Result<(), String> {
    made()
        .iter()
        .try_for_each(|(name, files)| task(&Path::new(folder).join(name), files))
}

fn main() -> ExitCode {
    let arguments: Vec<String> = env::args().skip(1).collect();
    let done = match arguments.iter().map(String::as_str).collect::<Vec<_>>()[..] {
        ["--check", folder] => in_each(folder, check),
        [folder] => in_each(folder, write),
        _ => Err("usage: captures [--check] FOLDER".to_string()),
    };
    match done {
        Ok(()) => ExitCode::SUCCESS,
        Err(message) => {
            eprintln!("captures: {message}");
            ExitCode::FAILURE
        }
    }
}
