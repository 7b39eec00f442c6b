//! The files that a report is made of, and the folders that they stand in.

mod common;

use std::fs;
use std::os::unix::fs::{FileTypeExt, PermissionsExt};

use common::{apart, pica, shell, Folder};

/// A folder with two lists of three writes.
fn captures(name: &str) -> Folder {
    let folder = Folder::new(name);
    folder.list("a", &apart([0x41, 0x42, 0x43]));
    folder.list("b", &apart([0x41, 0x42, 0x43]));
    folder
}

#[test]
fn files_are_written_though_nobody_reads_the_table() {
    let (folder, out) = (captures("reports-pipe"), Folder::new("reports-pipe-out"));
    for away in ["| :", "> /dev/full", ">&-"] {
        let script = format!(
            "{{ sleep 0.2; \"$0\" forecast \"$1\" --csv \"$2/x.csv\" --plot \"$2/x.svg\" --force; echo $? >&2; }} {away}"
        );
        let ran = shell(&script, &[&folder.0, &out.0]);
        assert!(ran.err.ends_with("2\n"), "{away}: {}", ran.err);
        let rows = fs::read_to_string(out.path("x.csv")).unwrap();
        assert_eq!(rows.lines().count(), 3, "{away}");
        let picture = fs::read_to_string(out.path("x.svg")).unwrap();
        assert!(picture.contains("2 lists: 16 words captured, 8 at the shortest"));
        fs::remove_file(out.path("x.csv")).unwrap();
    }
}

#[test]
fn what_a_run_writes_into_a_folder_is_no_list_of_it() {
    let folder = captures("reports-inside");
    let (verdicts, notes) = (folder.path("verdicts"), folder.path("notes"));
    let judge = "\"$0\" judge \"$1\" > \"$2\"; echo $?; cat \"$2\"";
    let ran = shell(judge, &[&folder.0, &verdicts]);
    assert_eq!(
        (&ran.out[..2], ran.out.lines().count()),
        ("0\n", 3),
        "{}",
        ran.out
    );
    assert!(
        ran.err
            .contains("/verdicts: this run's own output, not read\n"),
        "{}",
        ran.err
    );
    assert!(ran
        .err
        .ends_with("pica: 2 accepted, 0 refused, 0 unreadable\n"));
    fs::remove_file(verdicts).unwrap();

    let forecast = "cd \"$1\" && \"$0\" forecast . --csv x.csv --plot x.svg --force 2> \"$2\"";
    for _ in 0..2 {
        let ran = shell(forecast, &[&folder.0, &notes]);
        assert_eq!(ran.status, Some(0), "{}", ran.out);
        assert_eq!(ran.out.lines().count(), 4, "{}", ran.out);
    }
    let notes = fs::read_to_string(notes).unwrap();
    assert_eq!(
        notes.matches("this run's own output, not read").count(),
        3,
        "{notes}"
    );
}

#[test]
fn what_is_read_is_never_written_over() {
    let folder = captures("reports-over");
    let lines = b"041,F,1\n";
    folder.bytes("x.csv", lines);
    std::os::unix::fs::symlink("a", folder.path("link")).unwrap();
    let before = fs::read(folder.path("a")).unwrap();
    for (read, args) in [
        ("a", "forecast b a --plot ./a"),
        ("a", "forecast a --csv \"$PWD/link\""),
        ("link", "writes link --out a"),
        ("x.csv", "pack x.csv --out ../reports-over/x.csv"),
    ] {
        let ran = shell(&format!("cd \"$1\" && \"$0\" {args} --force"), &[&folder.0]);
        assert_eq!((ran.status, ran.out.as_str()), (Some(2), ""), "{args}");
        let told = format!("reads {read} and would write over it: give another name");
        assert!(ran.err.contains(&told), "{args}: {}", ran.err);
        assert_eq!(fs::read(folder.path("a")).unwrap(), before);
        assert_eq!(fs::read(folder.path("x.csv")).unwrap(), lines);
    }
}

#[test]
fn one_file_by_two_names_is_one_file() {
    let (folder, out) = (captures("reports-names"), Folder::new("reports-names-out"));
    for names in [
        "--csv x --plot ./x",
        "--csv x --plot ../reports-names-out/x",
    ] {
        let script = format!("cd \"$2\" && \"$0\" forecast \"$1\" {names} --force");
        let ran = shell(&script, &[&folder.0, &out.0]);
        assert_eq!((ran.status, ran.out.as_str()), (Some(2), ""), "{names}");
        assert!(
            ran.err.contains("has one file for --csv and --plot"),
            "{}",
            ran.err
        );
        assert!(!out.path("x").exists());
    }
}

#[test]
fn the_tables_file_is_never_written_over() {
    let (folder, out) = (captures("reports-table"), Folder::new("reports-table-out"));
    let script = "\"$0\" forecast \"$1\" --csv /dev/stdout --force > \"$2\"; echo $?; cat \"$2\"";
    let ran = shell(script, &[&folder.0, &out.path("table")]);
    assert_eq!(ran.out, "2\n");
    assert!(
        ran.err.contains("prints its table into that file too"),
        "{}",
        ran.err
    );
    let piped = shell(
        "\"$0\" forecast \"$1\" --csv /dev/stdout | cat",
        &[&folder.0],
    );
    assert!(piped.out.contains("\npath,verdict,"), "{}", piped.out);
}

#[test]
fn what_is_overwritten_keeps_its_permissions() {
    let (folder, out) = (captures("reports-mode"), Folder::new("reports-mode-out"));
    let target = out.bytes("x.csv", b"old");
    fs::set_permissions(&target, fs::Permissions::from_mode(0o600)).unwrap();
    let args = ["forecast".as_ref(), folder.0.as_os_str(), "--csv".as_ref()];
    let ran = pica(&[&args[..], &[target.as_os_str(), "--force".as_ref()]].concat());
    assert_eq!(ran.status, Some(0), "{}", ran.err);
    let seen = fs::metadata(&target).unwrap();
    assert_eq!(seen.permissions().mode() & 0o777, 0o600);
    assert!(seen.len() > 3);
}

#[test]
fn what_is_no_file_is_never_replaced() {
    let folder = captures("reports-socket");
    let (_bound, socket) = (folder.socket("socket"), folder.path("socket"));
    let args = ["forecast".as_ref(), folder.0.as_os_str(), "--csv".as_ref()];
    let ran = pica(&[&args[..], &[socket.as_os_str(), "--force".as_ref()]].concat());
    assert_eq!(ran.status, Some(2));
    assert!(
        ran.err.contains("is a device: give a file's name"),
        "{}",
        ran.err
    );
    assert!(fs::metadata(&socket).unwrap().file_type().is_socket());
}
