//! Makes the C header and the Rust tables of names from the text tables of `names/`.
//!
//!     names/make            writes include/pica_names.h and bindings/rust/src/names/tables.rs
//!     names/make --check    writes nothing, and tells where a table or one of the two files is wrong
//!     names/make --list     prints all names, a line each
//!
//! It runs in the repository's root. Ends with status 0, with 1 where something is wrong, and with 2 where it can't be told.

mod c;
mod checks;
mod header;
mod list;
mod rust;
mod tables;
mod text;

use std::io::{self, Write};
use std::{env, fs, process::ExitCode};

use tables::Tables;

/// What is made, and the file that it goes to.
fn made(tables: &Tables) -> Result<[(&'static str, String); 2], String> {
    Ok([
        ("include/pica_names.h", c::header(tables)?),
        ("bindings/rust/src/names/tables.rs", rust::tables(tables)),
    ])
}

fn write(tables: &Tables) -> Result<(), String> {
    for (path, text) in made(tables)? {
        fs::write(path, text).map_err(|why| format!("{path}: {why}"))?;
    }
    Ok(())
}

fn check(tables: &Tables) -> Result<Vec<String>, String> {
    let stale =
        |path: &str, text: &String| fs::read_to_string(path).map_or(true, |there| there != *text);
    let files = made(tables)?
        .into_iter()
        .filter(|(path, text)| stale(path, text));
    Ok(files
        .map(|(path, _)| format!("{path} isn't what the tables give: run names/make"))
        .collect())
}

fn run(arguments: &[&str]) -> Result<Vec<String>, String> {
    let tables = tables::load()?;
    let mut faults = checks::faults(&tables)?;
    match arguments {
        [] => write(&tables)?,
        ["--check"] => faults.extend(check(&tables)?),
        ["--list"] => {
            let told = io::stdout().write_all(list::list(&tables).as_bytes());
            told.map_err(|why| format!("standard output: {why}"))?;
        }
        _ => return Err("give no argument, --check or --list".into()),
    }
    Ok(faults)
}

fn main() -> ExitCode {
    let arguments: Vec<String> = env::args().skip(1).collect();
    match run(&arguments.iter().map(String::as_str).collect::<Vec<_>>()) {
        Ok(faults) => {
            faults.iter().for_each(|fault| eprintln!("{fault}"));
            ExitCode::from(u8::from(!faults.is_empty()))
        }
        Err(why) => {
            eprintln!("names: {why}");
            ExitCode::from(2)
        }
    }
}
