//! Output that is lost, and files that are written.

mod common;

use std::ffi::{OsStr, OsString};
use std::fs;

use common::{apart, example, pica, shell, Folder};

/// Every subcommand that prints, on lists that it prints something for.
fn printing(folder: &Folder) -> Vec<Vec<OsString>> {
    let list = example("triangle-state.bin").into_os_string();
    let csv = folder
        .bytes("writes.csv", b"041,F,00000001\n")
        .into_os_string();
    let args = |words: &[&str], path: &OsString| {
        words
            .iter()
            .map(OsString::from)
            .chain([path.clone()])
            .collect::<Vec<_>>()
    };
    vec![
        args(&["judge"], &list),
        args(&["judge", "--csv"], &list),
        args(&["judge", "--json"], &list),
        args(&["forecast", "--rate", "5"], &list),
        args(&["writes"], &list),
        args(&["pack"], &csv),
        args(&["help"], &OsString::from("judge")),
        vec![OsString::from("--help")],
        vec![OsString::from("--version")],
    ]
}

#[test]
fn a_closed_standard_output_gives_status_2() {
    let folder = Folder::new("output-closed");
    for args in printing(&folder) {
        let ran = shell("\"$0\" \"$@\" >&-", &args);
        assert_eq!(ran.status, Some(2), "{args:?}");
        assert!(ran.err.contains("output was lost"), "{args:?}: {}", ran.err);
    }
}

#[test]
fn a_full_disk_gives_status_2() {
    let folder = Folder::new("output-full");
    for args in printing(&folder) {
        let ran = shell("\"$0\" \"$@\" > /dev/full", &args);
        assert_eq!(ran.status, Some(2), "{args:?}");
        assert!(
            ran.err
                .contains("output was lost: standard output took no more: No space left on device"),
            "{}",
            ran.err
        );
    }
}

#[test]
fn a_closed_pipe_gives_status_2_without_a_word_and_ends_the_work() {
    let folder = Folder::new("output-pipe");
    for args in printing(&folder) {
        // the reader has gone before the command begins
        let ran = shell("{ sleep 0.2; \"$0\" \"$@\"; echo $? >&2; } | :", &args);
        assert_eq!(ran.err, "2\n", "{args:?}");
    }
    for k in 0..2000 {
        folder.list(format!("{k:04}"), &apart([0x41]));
    }
    let ran = shell(
        "{ \"$0\" judge \"$1\"; echo $? >&2; } | head -1",
        &[&folder.0],
    );
    assert_eq!(ran.out.lines().count(), 1);
    assert_eq!(ran.err, "2\n");
}

#[test]
fn what_prints_nothing_loses_nothing() {
    let folder = Folder::new("output-silent");
    let csv = folder.bytes("writes.csv", b"041,F,00000001\n");
    let ran = shell(
        "\"$0\" pack \"$1\" --out \"$1.bin\" >&-",
        &[csv.as_os_str()],
    );
    assert_eq!((ran.status, ran.err.as_str()), (Some(0), ""));
    assert_eq!(
        fs::read(folder.path("writes.csv.bin")).unwrap(),
        [1, 0, 0, 0, 0x41, 0, 0x0F, 0, 0, 0, 0, 0, 0, 0, 0, 0]
    );
}

/// The three subcommands that write files, with the file's name to be put last.
fn writing(folder: &Folder) -> Vec<Vec<OsString>> {
    let list = folder
        .list("in/list", &apart([0x41, 0x42]))
        .into_os_string();
    let csv = folder.bytes("in/writes.csv", b"041,F,1\n").into_os_string();
    let args =
        |name: &str, path: &OsString, option: &str| vec![name.into(), path.clone(), option.into()];
    vec![
        args("forecast", &list, "--csv"),
        args("forecast", &list, "--plot"),
        args("writes", &list, "--out"),
        args("pack", &csv, "--out"),
    ]
}

fn names(folder: &Folder) -> Vec<OsString> {
    let mut names: Vec<_> = fs::read_dir(&folder.0)
        .unwrap()
        .map(|entry| entry.unwrap().file_name())
        .collect();
    names.sort();
    names
}

#[test]
fn nothing_is_overwritten_without_force() {
    let folder = Folder::new("output-overwrite");
    for args in writing(&folder) {
        let target = folder.bytes("there", b"old");
        let with = |more: &[&OsStr]| {
            [
                args.as_slice(),
                &more.iter().map(OsString::from).collect::<Vec<_>>(),
            ]
            .concat()
        };
        let refused = pica(&with(&[target.as_os_str()]));
        assert_eq!(refused.status, Some(2), "{args:?}");
        assert!(
            refused
                .err
                .contains("there is there already: give another name, or --force"),
            "{}",
            refused.err
        );
        assert_eq!(refused.out, "", "the work hasn't begun");
        assert_eq!(fs::read(&target).unwrap(), b"old");

        assert_eq!(
            pica(&with(&[target.as_os_str(), OsStr::new("--force")])).status,
            Some(0)
        );
        let written = fs::read(&target).unwrap();
        assert!(written.len() > 5 && written != b"old");
        fs::remove_file(&target).unwrap();
        assert_eq!(pica(&with(&[target.as_os_str()])).status, Some(0));
        assert_eq!(fs::read(&target).unwrap(), written);
        assert_eq!(names(&folder), ["in", "there"], "nothing else is left");
    }
}

#[test]
fn a_link_is_written_through() {
    let folder = Folder::new("output-link");
    let target = folder.bytes("target", b"old");
    let link = folder.path("link");
    std::os::unix::fs::symlink(&target, &link).unwrap();
    let args = |force: &[&str]| {
        let start = [
            OsString::from("writes"),
            example("jump.bin").into(),
            "--out".into(),
            link.clone().into(),
        ];
        [
            &start[..],
            &force.iter().map(OsString::from).collect::<Vec<_>>(),
        ]
        .concat()
    };
    assert_eq!(pica(&args(&[])).status, Some(2));
    let mut good = args(&["--force"]);
    good[1] = example("triangle-state.bin").into();
    assert_eq!(pica(&good).status, Some(0));
    assert!(fs::symlink_metadata(&link).unwrap().is_symlink());
    assert!(fs::read(&target).unwrap().starts_with(b"id,mask,value\n"));
}

#[test]
fn what_cannot_be_written_is_told_before_the_work() {
    let folder = Folder::new("output-unwritable");
    for args in writing(&folder) {
        let cases = [
            (folder.path("no/such"), "there is no such folder"),
            (folder.0.clone(), "is a folder: give a file's name"),
            (
                folder.path("new/"),
                "is a folder's name: give a file's name",
            ),
            (
                folder.path("in/list/"),
                "is a folder's name: give a file's name",
            ),
            ("-".into(), "is no file's name"),
            ("".into(), "is no file's name"),
            ("/proc/pica".into(), "can't be written"),
        ];
        for (path, expected) in cases {
            let ran = pica(&[args.as_slice(), &[path.clone().into()]].concat());
            assert_eq!(ran.status, Some(2), "{path:?}");
            assert!(ran.err.contains(expected), "{path:?}: {}", ran.err);
            assert_eq!(ran.out, "", "the work hasn't begun");
        }
        let full = pica(&[args.as_slice(), &["/dev/full".into()]].concat());
        assert_eq!(full.status, Some(2));
        assert!(
            full.err
                .contains("/dev/full can't be written: No space left on device"),
            "{}",
            full.err
        );
        assert_eq!(
            pica(&[args.as_slice(), &["/dev/null".into()]].concat()).status,
            Some(0)
        );
        assert_eq!(names(&folder), ["in"]);
    }
}

#[test]
fn a_refused_list_leaves_no_file() {
    let folder = Folder::new("output-refused");
    let out = folder.path("out.csv");
    let ran = pica(&[
        OsStr::new("writes"),
        example("jump.bin").as_os_str(),
        OsStr::new("--out"),
        out.as_os_str(),
    ]);
    assert_eq!((ran.status, ran.out.as_str()), (Some(1), ""));
    assert!(
        ran.err.contains("jump.bin: refused 4 at word 2"),
        "{}",
        ran.err
    );
    assert!(names(&folder).is_empty());
    let bad = folder.bytes("bad.csv", b"041,F,1\nnonsense\n");
    let ran = pica(&[
        OsStr::new("pack"),
        bad.as_os_str(),
        OsStr::new("--out"),
        folder.path("out.bin").as_os_str(),
    ]);
    assert_eq!(ran.status, Some(2));
    assert_eq!(names(&folder), ["bad.csv"]);
}

#[test]
fn a_file_that_cannot_be_finished_is_taken_away() {
    let folder = Folder::new("output-unfinished");
    let (out, list) = (folder.path("out.csv"), example("triangle-state.bin"));
    // no file may be over 1,024 bytes, which is told like a full disk
    let script = "ulimit -f 1; \"$0\" writes \"$1\" --out \"$2\" ${3:+\"$3\"}";
    let ran = shell(script, &[list.as_os_str(), out.as_os_str()]);
    assert_eq!(ran.status, Some(2));
    assert!(
        ran.err.contains("out.csv can't be written: File too large"),
        "{}",
        ran.err
    );
    assert!(names(&folder).is_empty());
    folder.bytes("out.csv", b"old");
    let ran = shell(
        script,
        &[list.as_os_str(), out.as_os_str(), OsStr::new("--force")],
    );
    assert_eq!(ran.status, Some(2));
    assert_eq!(names(&folder), ["out.csv"]);
    assert_eq!(fs::read(&out).unwrap(), b"old");
}

#[test]
fn a_name_may_be_as_long_as_names_can_be() {
    let folder = Folder::new("output-long-name");
    for args in writing(&folder) {
        let path = folder.path("x".repeat(255));
        assert_eq!(
            pica(&[args.as_slice(), &[path.clone().into()]].concat()).status,
            Some(0)
        );
        fs::remove_file(path).unwrap();
        let longer = folder.path("x".repeat(256));
        let ran = pica(&[args.as_slice(), &[longer.into()]].concat());
        assert_eq!((ran.status, ran.out.as_str()), (Some(2), ""));
        assert!(
            ran.err.contains("can't be written: File name too long"),
            "{}",
            ran.err
        );
        assert_eq!(names(&folder), ["in"]);
    }
}
