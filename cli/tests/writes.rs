//! `pica writes` and `pica pack`: a list's writes as CSV, and back.

mod common;

use std::ffi::OsStr;
use std::fs;
use std::path::Path;

use common::{apart, bytes_of, command, example, filled, pica, pica_fed, shell, Folder, Random};

fn writes(path: &Path) -> String {
    let ran = pica(&[OsStr::new("writes"), path.as_os_str()]);
    assert_eq!((ran.status, ran.err.as_str()), (Some(0), ""));
    ran.out
}

#[test]
fn writes_are_printed_in_order() {
    let folder = Folder::new("writes-order");
    // document 01's example, a masked write, one with a padding word, and the pair that fills the list
    let list = [
        0xAAAA_AAAA,
        0x802F_011C,
        0xBBBB_BBBB,
        0xCCCC_CCCC,
        0x1F71,
        0x0002_0107,
        1,
        0x701F_0041,
        2,
        9,
        0,
        0,
    ];
    let expected = "id,mask,value\n11C,F,AAAAAAAA\n11D,F,BBBBBBBB\n11E,F,CCCCCCCC\n107,2,00001F71\n041,F,00000001\n041,F,00000002\n";
    assert_eq!(writes(&folder.list("list", &list)), expected);
    assert_eq!(writes(&folder.list("empty", &[])), "id,mask,value\n");
    assert_eq!(
        pica_fed(&["writes", "-"], &[&bytes_of(&list)]).out,
        expected
    );
    let triangle = writes(&example("triangle-state.bin"));
    assert_eq!(triangle.lines().count(), 451);
    assert_eq!(triangle.lines().nth(1), Some("040,F,00000002"));
    assert_eq!(triangle.lines().last(), Some("010,F,12345678"));
}

#[test]
fn packing_gives_document_01s_lists() {
    let csv = "41,F,1\n41,F,2\n42,F,3\n43,F,4\n";
    let ran = pica_fed(&["pack", "-"], &[csv.as_bytes()]);
    assert_eq!(ran.status, Some(0));
    let six = [1, 0x000F_0041, 2, 0x802F_0041, 3, 4];
    assert_eq!(ran.bytes, bytes_of(&filled(six.to_vec())));
    let ran = pica_fed(
        &["pack", "-"],
        &[b"# comment\n\n 0x41 , fh , 1\r\n41,F,2\n42,F,3"],
    );
    let six = [1, 0x001F_0041, 2, 0, 3, 0x000F_0042];
    assert_eq!(ran.bytes, bytes_of(&filled(six.to_vec())));
    let same = pica_fed(&["pack", "-"], &["41,F,7\n".repeat(256).as_bytes()]);
    assert_eq!(same.bytes.len(), 4 * 260);
    let empty = pica_fed(&["pack", "-"], &[b"id,mask,value\n"]);
    assert_eq!((empty.status, empty.bytes.len()), (Some(0), 0));
}

/// A list's writes, packed, are the same writes, in no more words.
fn round_trip(folder: &Folder, path: &Path) -> String {
    let packed = folder.path("packed");
    let ran = shell(
        "\"$0\" writes \"$1\" | \"$0\" pack - --out \"$2\" --force",
        &[path, &packed],
    );
    assert_eq!(ran.status, Some(0), "{}", ran.err);
    assert_eq!(writes(&packed), writes(path));
    assert!(fs::metadata(&packed).unwrap().len() <= fs::metadata(path).unwrap().len());
    ran.err
}

#[test]
fn a_list_goes_there_and_back() {
    let folder = Folder::new("writes-round");
    assert_eq!(round_trip(&folder, &example("triangle-state.bin")), "");
    assert_eq!(round_trip(&folder, &folder.list("empty", &[])), "");
    let mut random = Random(0x2545_F491_4F6C_DD1D);
    for length in [1, 7, 100, 4096] {
        let ids: Vec<u32> = (0..length).map(|_| 0x40 + random.below(3) as u32).collect();
        assert_eq!(round_trip(&folder, &folder.list("random", &apart(ids))), "");
    }
    // over 4,096 writes: what may be over the shortest is said, and nothing where it is the shortest
    for ids in [[0x41; 3], [0x41, 0x43, 0x45]] {
        let long = ids.into_iter().cycle().take(9000);
        assert_eq!(round_trip(&folder, &folder.list("long", &apart(long))), "");
    }
    let steps = apart((0..4102).map(|k| 0x40 + k / 11));
    let told = "pica: over 4,096 writes, packed in parts: 4,480 words, at most 4 more than the shortest list\n";
    assert_eq!(round_trip(&folder, &folder.list("steps", &steps)), told);
}

/// The longest list of writes to one register is packed into no more words than it has.
#[test]
fn the_longest_list_goes_there_and_back() {
    let folder = Folder::new("writes-longest");
    let mut command = vec![7; 256];
    command[1] = 254 << 20 | 0x000F_0041;
    let path = folder.list("longest", &command.repeat(256));
    assert_eq!(round_trip(&folder, &path), "");
}

#[test]
fn bad_lines_are_told_by_their_number() {
    let cases: [(&[u8], &str); 6] = [
        (b"id,mask,value\n041,F,1\n041,F\n", "-: line 3: expected id,mask,value in hexadecimal"),
        (b"41,F,1\n\n#\nid,mask,value\n", "-: line 4: expected id,mask,value in hexadecimal"),
        (b"41,F,1\n41,F,123456789\n", "-: line 2: 123456789 is above FFFFFFFF"),
        (b"\xFF\xFE\x00\n", "-: line 1: expected id,mask,value in hexadecimal"),
        (b"", "-: there is no write in it, nor the line id,mask,value"),
        (b"41;F;1\n", "-: line 1: expected id,mask,value in hexadecimal, as 041,F,00000001, and found `41;F;1`"),
    ];
    for (csv, expected) in cases {
        let ran = pica_fed(&["pack", "-"], &[csv]);
        assert_eq!((ran.status, ran.bytes.len()), (Some(2), 0));
        assert!(ran.err.contains(expected), "{}", ran.err);
    }
}

#[test]
fn the_packers_refusals_name_the_line() {
    let cases = [
        ("300,F,1", 3),
        ("23c,F,1", 4),
        ("23D,0,1", 4),
        ("E8,7,1", 5),
        ("1CF,0,1", 5),
        ("41,10,1", 9),
        ("FFFFFFFF,F,1", 3),
    ];
    for (line, number) in cases {
        let csv = format!("id,mask,value\n41,F,1\n# and\n{line}\n41,F,1\n");
        let ran = pica_fed(&["pack", "-"], &[csv.as_bytes()]);
        assert_eq!((ran.status, ran.bytes.len()), (Some(1), 0), "{line}");
        assert!(
            ran.err
                .starts_with(&format!("pica: -: line 4: refused {number}: ")),
            "{line}: {}",
            ran.err
        );
    }
    // in a later part, too
    let csv = "41,F,1\n".repeat(5000) + "23C,F,1\n";
    let ran = pica_fed(&["pack", "-"], &[csv.as_bytes()]);
    assert!(
        ran.err.starts_with("pica: -: line 5,001: refused 4: "),
        "{}",
        ran.err
    );
}

#[test]
fn more_than_a_list_can_say_is_refused() {
    // alternating ids take two words a write, and a pair where there are 65,538 of them
    let longest = "41,F,1\n43,F,1\n".repeat(16_384);
    for more in ["41,F,1\n", "41,F,1\n43,F,1\n"] {
        let ran = pica_fed(&["pack", "-"], &[longest.as_bytes(), more.as_bytes()]);
        assert_eq!((ran.status, ran.bytes.len()), (Some(1), 0));
        assert!(
            ran.err.contains("refused 1: the list has 65,540 words"),
            "{}",
            ran.err
        );
    }
    // as many as fit, and one fewer with the pair in its place
    for csv in [&longest[..], &longest[7..]] {
        let ran = pica_fed(&["pack", "-"], &[csv.as_bytes()]);
        assert_eq!((ran.status, ran.bytes.len()), (Some(0), 262_144));
    }
    // of an endless run no more is read than tells
    let ran = shell("yes 41,F,1 | \"$0\" pack -", &[""]);
    assert_eq!(ran.status, Some(1));
    assert!(
        ran.err.contains("refused 1: over 65,535 writes"),
        "{}",
        ran.err
    );
    // the longest run of one id that fits: 257 commands of 255 writes in 256 words are 65,792; 256 of them fill the list
    let ran = pica_fed(&["pack", "-"], &["41,F,1\n".repeat(65_000).as_bytes()]);
    assert_eq!(ran.status, Some(0), "{}", ran.err);
    assert!(ran.bytes.len() <= 262_144);
}

#[test]
fn a_list_isnt_printed_on_a_terminal() {
    let folder = Folder::new("writes-terminal");
    let path = folder.bytes("a.csv", b"41,F,1\n");
    let opened = fs::OpenOptions::new()
        .read(true)
        .write(true)
        .open("/dev/ptmx");
    let Ok(terminal) = opened else {
        eprintln!("there is no terminal to be had here: not tested");
        return;
    };
    let ran = command(&[OsStr::new("pack"), path.as_os_str()])
        .stdout(terminal)
        .output()
        .unwrap();
    assert_eq!(ran.status.code(), Some(2));
    let told = String::from_utf8(ran.stderr).unwrap();
    assert!(
        told.contains("prints no list on a terminal: give --out FILE.bin"),
        "{told}"
    );
}
