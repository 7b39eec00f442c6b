//! Help, the version, and wrong usage.

mod common;

use std::fs;
use std::path::Path;

use common::pica;

const COMMANDS: [&str; 6] = ["judge", "pieces", "forecast", "show", "writes", "pack"];

#[test]
fn help_is_there_for_each() {
    let overview = pica(&["--help"]);
    assert_eq!((overview.status, overview.err.as_str()), (Some(0), ""));
    assert_eq!(pica::<&str>(&[]).out, overview.out);
    assert_eq!(pica(&["help"]).out, overview.out);
    for name in COMMANDS {
        assert!(overview.out.contains(&format!("\n  {name} ")), "{name}");
        let help = pica(&[name, "--help"]);
        assert_eq!((help.status, help.err.as_str()), (Some(0), ""));
        assert!(
            help.out.contains(&format!("Usage: pica {name}")),
            "{}",
            help.out
        );
        assert!(
            help.out.contains("Example") && help.out.contains("Exit status"),
            "{}",
            help.out
        );
        assert_eq!(pica(&["help", name]).out, help.out);
        assert_eq!(pica(&[name, "nothing", "-h"]).out, help.out);
    }
}

#[test]
fn the_version_is_that_of_the_header() {
    let header =
        fs::read_to_string(Path::new(env!("CARGO_MANIFEST_DIR")).join("../include/pica.h"))
            .unwrap();
    let part = |name: &str| {
        let start = format!("#define PICA_VERSION_{name} ");
        header
            .lines()
            .find_map(|line| line.strip_prefix(&start))
            .unwrap()
            .trim()
            .to_owned()
    };
    let version = format!(
        "pica {}.{}.{}\n",
        part("MAJOR"),
        part("MINOR"),
        part("PATCH")
    );
    assert_eq!(pica(&["--version"]).out, version);
}

#[test]
fn wrong_usage_says_what_to_do() {
    let cases: [(&[&str], &str); 15] = [
        (&["jugde"], "did you mean `pica judge`?"),
        (&["\u{1b}[31m"], "there is no subcommand \\u{1b}[31m: "),
        (&["dance"], "`pica --help` lists the subcommands"),
        (&["help", "forcast"], "did you mean `pica forecast`?"),
        (&["--csv"], "the subcommand comes first"),
        (&["judge"], "give files, folders or -"),
        (&["forecast"], "give files, folders or -"),
        (&["pieces"], "give files, folders or -"),
        (&["pieces", "--csv", "--json", "x"], "not both"),
        (&["judge", "--cvs", "x"], "did you mean --csv?"),
        (&["judge", "--csv", "--json", "x"], "not both"),
        (&["judge", "-x"], "comes after `--`"),
        (&["writes"], "give a list, or -"),
        (&["pack", "a", "b"], "takes one file, and b is a second"),
        (
            &["forecast", "x", "--rate"],
            "needs words a second after --rate",
        ),
    ];
    for (args, expected) in cases {
        let ran = pica(args);
        assert_eq!((ran.status, ran.out.as_str()), (Some(2), ""), "{args:?}");
        assert!(
            ran.err.starts_with("pica: ") && ran.err.contains(expected),
            "{args:?}: {}",
            ran.err
        );
        assert_eq!(ran.err.lines().count(), 1);
    }
}
