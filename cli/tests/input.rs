//! What is read: folders, links, pipes, devices, odd paths, too much.

mod common;

use std::ffi::{OsStr, OsString};
use std::fs::{self, File};
use std::io::Write;
use std::os::unix::ffi::OsStrExt;
use std::os::unix::fs::symlink;
use std::process::{Command, Stdio};
use std::time::{Duration, Instant};

use common::{command, pica, pica_fed, shell, Folder};

const LIST: [u32; 4] = [1, 0x000F_0041, 0, 0];
/// What is said of it.
const VERDICT: &str = "ok, 1 write (1 made a difference), 4 words";

/// The lines of a run, without the folder's name.
fn lines(folder: &Folder, out: &str) -> Vec<String> {
    let start = format!("{}/", folder.0.display());
    out.lines()
        .map(|line| line.strip_prefix(&start).unwrap_or(line).to_owned())
        .collect()
}

#[test]
fn a_folder_is_read_in_order_of_the_names_of_its_parts() {
    let folder = Folder::new("input-order");
    for name in [
        "b.bin",
        "a/z.bin",
        "a/B.bin",
        "a/b/c.bin",
        "a.bin",
        ".hidden",
        "a-/x",
    ] {
        folder.list(name, &LIST);
    }
    let ran = pica(&[OsStr::new("judge"), folder.0.as_os_str()]);
    assert_eq!(ran.status, Some(0));
    let names: Vec<String> = lines(&folder, &ran.out)
        .iter()
        .map(|line| line.split(':').next().unwrap().to_owned())
        .collect();
    assert_eq!(
        names,
        [
            ".hidden",
            "a/B.bin",
            "a/b/c.bin",
            "a/z.bin",
            "a-/x",
            "a.bin",
            "b.bin"
        ]
    );
    assert_eq!(ran.err, "pica: 7 accepted, 0 refused, 0 unreadable\n");
}

#[test]
fn what_is_no_file_in_a_folder_is_told_and_never_opened() {
    let folder = Folder::new("input-special");
    folder.list("a", &LIST);
    fs::create_dir(folder.path("empty")).unwrap();
    symlink("a", folder.path("link")).unwrap();
    symlink(".", folder.path("loop")).unwrap();
    symlink("nowhere", folder.path("lost")).unwrap();
    symlink("/dev/zero", folder.path("zero")).unwrap();
    let made = Command::new("mkfifo")
        .arg(folder.path("pipe"))
        .status()
        .unwrap();
    assert!(made.success());
    let _socket = folder.socket("socket");
    let ran = pica(&[OsStr::new("judge"), folder.0.as_os_str()]);
    let expected = [
        &format!("a: {VERDICT}"),
        &format!("link: {VERDICT}"),
        "lost: unreadable: a link that leads to no file; mend the link, or name the file itself",
        "pipe: unreadable: a pipe and no file; name it by itself to read it",
        "socket: unreadable: a socket and no file; name it by itself to read it",
        "zero: unreadable: a device and no file; name it by itself to read it",
    ];
    assert_eq!(lines(&folder, &ran.out), expected);
    assert_eq!(ran.status, Some(2));
    assert!(
        ran.err.contains("loop: a link to a folder, not followed\n"),
        "{}",
        ran.err
    );
}

#[test]
fn pipes_and_devices_are_read_where_they_are_named() {
    let folder = Folder::new("input-named");
    let list = "printf '\\1\\0\\0\\0A\\0\\17\\0'; head -c 8 /dev/zero";
    let ran = shell(&format!("\"$0\" judge <({list})"), &[""]);
    let verdict = format!(": {VERDICT}\n");
    assert!(ran.out.ends_with(&verdict), "{}", ran.out);
    assert_eq!(
        pica(&["judge", "/dev/null"]).out,
        "/dev/null: ok, 0 writes (0 made a difference), 0 words (empty)\n"
    );
    let zeros = pica(&["judge", "/dev/zero"]);
    assert!(
        zeros.out.starts_with("/dev/zero: refused 1: "),
        "{}",
        zeros.out
    );
    symlink(&folder.0, folder.path("self")).unwrap();
    folder.list("a", &LIST);
    let through_link = pica(&[OsStr::new("judge"), folder.path("self").as_os_str()]);
    assert!(
        through_link.out.ends_with(&format!("self/a{verdict}")),
        "{}",
        through_link.out
    );
}

#[test]
fn an_empty_folder_is_said_to_be_empty() {
    let folder = Folder::new("input-empty");
    for name in ["judge", "forecast"] {
        let ran = pica(&[OsStr::new(name), folder.0.as_os_str()]);
        assert_eq!(ran.status, Some(0));
        assert!(ran.err.contains("no file in this folder"), "{}", ran.err);
    }
    assert_eq!(
        pica(&[
            OsStr::new("judge"),
            folder.0.as_os_str(),
            OsStr::new("--json")
        ])
        .out,
        "[\n]\n"
    );
}

#[test]
fn odd_paths_work() {
    let folder = Folder::new("input-odd");
    let odd = OsStr::from_bytes(b"caf\xE9\x1B[31m\n \"&<>,.bin");
    let path = folder.list(odd, &LIST).into_os_string();
    for args in [[path.clone()], [folder.0.clone().into_os_string()]] {
        let ran = pica(&[&[OsString::from("judge")], args.as_slice()].concat());
        assert_eq!(
            lines(&folder, &ran.out),
            [format!("caf\u{FFFD}\\u{{1b}}[31m\\n \"&<>,.bin: {VERDICT}")]
        );
        assert_eq!(ran.status, Some(0));
    }
    let dashed = folder.list("--csv", &LIST);
    let name = dashed.file_name().unwrap();
    let ran = command(&[OsStr::new("judge"), OsStr::new("--"), name, OsStr::new("")])
        .current_dir(&folder.0)
        .output()
        .unwrap();
    let out = String::from_utf8(ran.stdout).unwrap();
    assert!(
        out.starts_with(&format!(
            "--csv: {VERDICT}\n: unreadable: there is no such file"
        )),
        "{out}"
    );
}

#[test]
fn a_gigabyte_is_refused_at_once() {
    let folder = Folder::new("input-gigabyte");
    let path = folder.path("sparse");
    File::create(&path).unwrap().set_len(1 << 30).unwrap();
    let start = Instant::now();
    let ran = pica(&[OsStr::new("judge"), path.as_os_str()]);
    assert_eq!(ran.status, Some(1));
    assert!(ran.out.contains("sparse: refused 1: "), "{}", ran.out);
    let fed = shell("\"$0\" judge - < \"$1\"", &[path.as_os_str()]);
    assert!(fed.out.starts_with("-: refused 1: "), "{}", fed.out);
    assert!(
        start.elapsed() < Duration::from_secs(2),
        "{:?}",
        start.elapsed()
    );
}

#[test]
fn of_endless_input_no_more_is_read_than_tells() {
    let piped = command(&["judge", "-"])
        .stdin(Stdio::piped())
        .stdout(Stdio::piped())
        .spawn();
    let mut child = piped.unwrap();
    let mut input = child.stdin.take().unwrap();
    let (piece, mut written) = ([0; 4096], 0);
    while input.write_all(&piece).is_ok() {
        written += piece.len();
        assert!(written < 1 << 24, "it reads on");
    }
    let output = child.wait_with_output().unwrap();
    assert!(output.stdout.starts_with(b"-: refused 1: "));
    // what fills the pipe itself comes on top; a pipe's usual size is 65,536 bytes, and no machine's is above a megabyte by default
    assert!(written <= 262_145 + (1 << 20), "{written}");
}

#[test]
fn the_longest_list_and_one_byte_more() {
    let longest = vec![0; 262_144];
    assert_eq!(pica_fed(&["judge", "-"], &[&longest]).status, Some(0));
    let ran = pica_fed(&["judge", "-"], &[&longest, &[0]]);
    assert!(ran.out.starts_with("-: refused 1: "), "{}", ran.out);
}

#[test]
fn what_may_not_be_read_is_told() {
    let folder = Folder::new("input-denied");
    let ran = shell("cd \"$1\" && mkdir f && touch g && chmod 0 f g && \"$0\" judge f g; s=$?; chmod 700 f; exit $s", &[&folder.0]);
    // the super-user may read all the same: an empty list, and an empty folder
    let is_super = ran.out.contains("g: ok");
    assert!(
        is_super || ran.out.matches("no permission to read it").count() == 2,
        "{}",
        ran.out
    );
    assert_eq!(ran.status, Some(if is_super { 0 } else { 2 }));
    let closed = shell("\"$0\" judge - <&-", &[""]);
    assert_eq!(closed.status, Some(2));
    assert!(
        closed
            .out
            .starts_with("-: unreadable: standard input is closed; "),
        "{}",
        closed.out
    );
    let as_list = pica(&[OsStr::new("writes"), folder.0.as_os_str()]);
    assert_eq!(as_list.status, Some(2));
    assert!(
        as_list
            .err
            .contains("unreadable: a folder; name a file in it"),
        "{}",
        as_list.err
    );
}
