//! A subcommand's arguments: options, their values, and the paths between them.

use std::ffi::{OsStr, OsString};
use std::os::unix::ffi::OsStrExt;

use crate::status::Failure;

/// An option: its name, and what its value is called where it takes one.
pub type Known = (&'static str, Option<&'static str>);

/// What was given.
#[derive(Debug, Default)]
pub struct Given {
    pub paths: Vec<OsString>,
    options: Vec<(&'static str, OsString)>,
}

impl Given {
    pub fn has(&self, name: &str) -> bool {
        self.value(name).is_some()
    }

    /// The option's value; empty for an option that takes none.
    pub fn value(&self, name: &str) -> Option<&OsStr> {
        self.options
            .iter()
            .find(|(given, _)| *given == name)
            .map(|(_, value)| value.as_os_str())
    }

    /// The one path that a subcommand is about.
    pub fn only_path(&self, command: &str, what: &str) -> Result<&OsStr, Failure> {
        match self.paths.as_slice() {
            [path] => Ok(path),
            [] => Err(wrong(command, &format!("names no file: give {what}"))),
            [_, more, ..] => Err(wrong(
                command,
                &format!("takes one file, and {} is a second", more.to_string_lossy()),
            )),
        }
    }
}

/// A message on wrong usage, which ends with where the help is.
pub fn wrong(command: &str, what: &str) -> Failure {
    Failure::Usage(format!(
        "`pica {command}` {what}; `pica {command} --help` has an example"
    ))
}

/// Takes arguments apart. `--` ends the options, `--name=value` and `--name value` are the same, and `-` is a path. An option's name is
/// no other's value, unless it is joined with =.
pub fn parse(command: &str, args: &[OsString], known: &[Known]) -> Result<Given, Failure> {
    let mut given = Given::default();
    let mut args = args.iter();
    while let Some(arg) = args.next() {
        if arg == "--" {
            given.paths.extend(args.by_ref().cloned());
        } else if arg == "-" || !arg.as_bytes().starts_with(b"-") {
            given.paths.push(arg.clone());
        } else {
            let (name, joined) = halves(arg);
            let (name, takes) = lookup(command, &name, known)?;
            let value = match (takes, joined) {
                (Some(_), Some(value)) => value,
                (Some(what), None) => {
                    let is_value = |arg: &&OsString| known.iter().all(|(option, _)| arg != option);
                    let value = args.next().filter(is_value);
                    let missing = || wrong(command, &format!("needs {what} after {name}"));
                    value.ok_or_else(missing)?.clone()
                }
                (None, Some(_)) => {
                    return Err(wrong(command, &format!("takes no value with {name}")))
                }
                (None, None) => OsString::new(),
            };
            if given.has(name) {
                return Err(wrong(command, &format!("takes {name} once")));
            }
            given.options.push((name, value));
        }
    }
    Ok(given)
}

fn halves(arg: &OsStr) -> (String, Option<OsString>) {
    let bytes = arg.as_bytes();
    match bytes.iter().position(|&byte| byte == b'=') {
        Some(at) if bytes.starts_with(b"--") => {
            let value = OsStr::from_bytes(&bytes[at + 1..]).to_owned();
            (
                String::from_utf8_lossy(&bytes[..at]).into_owned(),
                Some(value),
            )
        }
        _ => (arg.to_string_lossy().into_owned(), None),
    }
}

fn lookup(command: &str, name: &str, known: &[Known]) -> Result<Known, Failure> {
    if let Some(found) = known.iter().find(|(option, _)| *option == name) {
        return Ok(*found);
    }
    let near = nearest(name, known.iter().map(|(option, _)| *option));
    let hint = near.map_or_else(
        || format!("a path that begins with `-` comes after `--`: `pica {command} -- {name}`"),
        |near| format!("did you mean {near}?"),
    );
    Err(wrong(command, &format!("has no option {name} ({hint})")))
}

/// Whether help is asked for, before `--`.
pub fn asks_help(args: &[OsString]) -> bool {
    args.iter()
        .take_while(|arg| *arg != "--")
        .any(|arg| arg == "--help" || arg == "-h")
}

/// The name that is at most two edits, and less than half its letters, away.
pub fn nearest<'a>(name: &str, names: impl Iterator<Item = &'a str>) -> Option<&'a str> {
    let near = names
        .map(|other| (distance(name, other), other))
        .min_by_key(|(edits, _)| *edits)?;
    (near.0 <= 2 && 2 * near.0 < near.1.len()).then_some(near.1)
}

/// How many letters must be put in, left out or changed.
fn distance(a: &str, b: &str) -> usize {
    let b: Vec<char> = b.chars().collect();
    let mut row: Vec<usize> = (0..=b.len()).collect();
    for (i, x) in a.chars().enumerate() {
        let mut corner = row[0];
        row[0] = i + 1;
        for (j, y) in b.iter().enumerate() {
            let changed = corner + usize::from(x != *y);
            corner = row[j + 1];
            row[j + 1] = changed.min(corner + 1).min(row[j] + 1);
        }
    }
    row[b.len()]
}

#[cfg(test)]
mod tests {
    use super::*;

    const KNOWN: [Known; 2] = [("--out", Some("a file")), ("--force", None)];

    fn parsed(args: &[&str]) -> Result<Given, Failure> {
        let args: Vec<OsString> = args.iter().map(OsString::from).collect();
        parse("pack", &args, &KNOWN)
    }

    #[test]
    fn options_stand_anywhere_before_the_end_of_options() {
        let given = parsed(&["a", "--out", "--b", "-", "--force", "--", "--out"]).unwrap();
        assert_eq!(given.paths, ["a", "-", "--out"]);
        assert_eq!(given.value("--out"), Some(OsStr::new("--b")));
        assert!(given.has("--force"));
        assert_eq!(
            parsed(&["--out=--force"]).unwrap().value("--out"),
            Some(OsStr::new("--force"))
        );
        assert_eq!(
            parsed(&["--out=x=y"]).unwrap().value("--out"),
            Some(OsStr::new("x=y"))
        );
    }

    #[test]
    fn wrong_options_are_told() {
        let told = |args: &[&str]| format!("{:?}", parsed(args).unwrap_err());
        assert!(told(&["--ot", "x"]).contains("did you mean --out?"));
        assert!(told(&["--out"]).contains("needs a file after --out"));
        assert!(told(&["--out", "--force"]).contains("needs a file after --out"));
        assert!(told(&["--force=1"]).contains("takes no value"));
        assert!(told(&["--out", "x", "--out", "y"]).contains("once"));
        assert!(told(&["-x"]).contains("-- -x"));
    }

    #[test]
    fn near_names() {
        assert_eq!(distance("forcast", "forecast"), 1);
        assert_eq!(nearest("pakc", ["judge", "pack"].into_iter()), None);
        assert_eq!(
            nearest("jugde", ["judge", "pack"].into_iter()),
            Some("judge")
        );
        assert_eq!(nearest("zzz", ["judge", "pack"].into_iter()), None);
    }
}
