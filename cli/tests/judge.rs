//! `pica judge`: verdicts as text, CSV and JSON.

mod common;

use std::ffi::OsStr;

use common::check::{csv, json, Json};
use common::{apart, bytes_of, example, pica, pica_fed, Folder, Random};

#[test]
fn the_sample_lists() {
    let accepted = pica(&["judge".into(), example("triangle-state.bin")]);
    assert_eq!(accepted.status, Some(0));
    assert!(
        accepted
            .out
            .ends_with("triangle-state.bin: ok, 450 writes (417 made a difference), 480 words\n"),
        "{}",
        accepted.out
    );
    assert_eq!(accepted.err, "");

    let refused = pica(&["judge".into(), example("jump.bin")]);
    assert_eq!(refused.status, Some(1));
    assert!(
        refused
            .out
            .contains("jump.bin: refused 4 at word 2, byte 8 (8h): "),
        "{}",
        refused.out
    );
}

#[test]
fn every_refusal_of_a_list_has_its_number_place_and_text() {
    let folder = Folder::new("judge-refusals");
    let whole = [1, 0x000F_0041];
    let cases: [(&str, &[u32], &str); 4] = [
        ("2", &[1, 0x001F_0041], "refused 2 at word 2, byte 8 (8h): "),
        ("3", &[1, 0x000F_0300], "refused 3 at word 2, byte 8 (8h): "),
        ("4", &[1, 0x000F_023D], "refused 4 at word 2, byte 8 (8h): "),
        ("5", &[1, 0x0007_00E8], "refused 5 at word 2, byte 8 (8h): "),
    ];
    for (name, bad, expected) in cases {
        let ran = pica(&["judge".into(), folder.list(name, &[&whole, bad].concat())]);
        assert_eq!(ran.status, Some(1));
        let (start, texts) = ran.out.split_once(expected).expect(expected);
        assert!(start.ends_with(&format!("{name}: ")));
        let (meaning, advice) = texts.split_once("; ").expect("a meaning, and what to do");
        assert!(meaning.len() > 10 && advice.trim().len() > 10, "{texts}");
    }
    let long = pica(&["judge".into(), folder.list("long", &vec![0; 65_537])]);
    assert_eq!(long.status, Some(1));
    assert!(
        long.out
            .contains("long: refused 1: a list over 65,536 words; "),
        "{}",
        long.out
    );
    let longest = pica(&["judge".into(), folder.list("longest", &vec![0; 65_536])]);
    assert!(
        longest.out.contains(
            "ok, 0 writes (0 made a difference), 65,536 words (sets nothing: every word is 0)"
        ),
        "{}",
        longest.out
    );
}

#[test]
fn a_list_that_sets_nothing_gets_a_remark() {
    let folder = Folder::new("judge-nothing");
    let cases: [(&str, &[u32], &str); 5] = [
        (
            "empty",
            &[],
            "ok, 0 writes (0 made a difference), 0 words (empty)\n",
        ),
        (
            "blank",
            &[0; 8],
            "ok, 0 writes (0 made a difference), 8 words (sets nothing: every word is 0)\n",
        ),
        (
            "maskless",
            &[7, 0x8010_0041, 7, 0],
            "ok, 0 writes (0 made a difference), 4 words (sets nothing: every mask is 0)\n",
        ),
        (
            "one",
            &[7, 0x0001_0041, 0, 0],
            "ok, 1 write (1 made a difference), 4 words\n",
        ),
        (
            "zeros",
            &[0, 0x000F_0041, 0, 0],
            "ok, 1 write (0 made a difference), 4 words\n",
        ),
    ];
    for (name, words, expected) in cases {
        let ran = pica(&["judge".into(), folder.list(name, words)]);
        assert_eq!(ran.status, Some(0));
        assert!(
            ran.out.ends_with(&format!("{name}: {expected}")),
            "{}",
            ran.out
        );
    }
}

/// A list that was read before leaves nothing to the next one: each begins with zeros.
#[test]
fn differences_are_those_of_each_list_in_a_state_of_zeros() {
    let folder = Folder::new("judge-differences");
    // 41 set twice to the same, 11C, which isn't held, and a fog entry that holds 0 already
    let list = [1, 0x001F_0041, 1, 0, 7, 0x000F_011C, 0, 0x000F_00E8];
    let (one, other) = (folder.list("one", &list), folder.list("other", &list));
    let ran = pica(&["judge".into(), one.clone(), other, one]);
    assert_eq!(ran.status, Some(0));
    let verdict = ": ok, 4 writes (2 made a difference), 8 words";
    assert_eq!(ran.out.lines().count(), 3);
    assert!(
        ran.out.lines().all(|line| line.ends_with(verdict)),
        "{}",
        ran.out
    );
}

#[test]
fn a_batch_goes_on_and_the_worst_is_its_status() {
    let folder = Folder::new("judge-batch");
    let (good, cut) = (
        folder.list("good", &apart([0x41])),
        folder.bytes("cut", &[0; 7]),
    );
    let missing = folder.path("missing");
    let ran = pica(&[
        "judge".into(),
        example("jump.bin"),
        missing,
        cut,
        good.clone(),
    ]);
    assert_eq!(ran.status, Some(2));
    let lines: Vec<&str> = ran.out.lines().collect();
    assert_eq!(lines.len(), 4);
    assert!(
        lines[1].ends_with("missing: unreadable: there is no such file; check its name"),
        "{}",
        lines[1]
    );
    assert!(
        lines[2].contains("cut: unreadable: ends within a word (7 bytes); "),
        "{}",
        lines[2]
    );
    assert!(lines[3].ends_with("good: ok, 1 write (1 made a difference), 4 words"));
    assert_eq!(ran.err, "pica: 1 accepted, 1 refused, 2 unreadable\n");
    assert_eq!(
        pica(&["judge".into(), good, example("jump.bin")]).status,
        Some(1)
    );
}

const COLUMNS: &str = "path verdict writes words number place byte meaning what_to_do differences";

fn columns() -> Vec<&'static str> {
    COLUMNS.split(' ').collect()
}

/// A folder with a list for each verdict.
fn verdicts(name: &str) -> Folder {
    let folder = Folder::new(name);
    folder.list("a, \"b\"\n.bin", &apart([0x41, 0x42]));
    folder.list("blank", &[0; 4]);
    folder.list("jump", &[1, 0x000F_0041, 1, 0x000F_023C]);
    folder.list("long", &vec![0; 65_537]);
    folder.list("pair", &[1, 0x000F_023C]);
    folder.bytes("seven", &[0; 7]);
    folder
}

/// The folder's verdicts as CSV, without the line of the columns' names.
fn rows(folder: &Folder) -> Vec<Vec<String>> {
    let mut rows = csv(&pica(&["judge".into(), "--csv".into(), folder.0.clone()]).out);
    assert_eq!(rows.remove(0), columns());
    rows
}

#[test]
fn csv_has_a_row_for_each() {
    let rows = rows(&verdicts("judge-csv"));
    assert!(rows[0][0].ends_with("/a, \"b\"\n.bin"));
    assert_eq!(rows[0][1..], ["ok", "2", "4", "", "", "", "", "", "2"]);
    let nothing = "sets nothing: every word is 0";
    assert_eq!(rows[1][1..8], ["ok", "0", "4", "", "", "", nothing]);
    assert_eq!(rows[1][8..], ["", "0"]);
    assert_eq!(rows[2][1..7], ["refused", "", "", "4", "2", "8"]);
    assert_eq!(rows[2][9], "");
    let long = "a list over 65,536 words";
    assert_eq!(rows[3][1..8], ["refused", "", "", "1", "0", "", long]);
    let pair = "a list whose words are no multiple of 4";
    assert_eq!(rows[4][1..8], ["refused", "", "", "15", "0", "", pair]);
    let seven = "ends within a word (7 bytes)";
    assert_eq!(rows[5][1..8], ["unreadable", "", "", "", "", "", seven]);
}

#[test]
fn a_file_to_write_is_no_list_to_judge() {
    let folder = verdicts("judge-target");
    let target = folder.path("out.csv");
    let args = [
        OsStr::new("judge"),
        folder.0.as_os_str(),
        OsStr::new("--csv"),
        target.as_os_str(),
    ];
    let ran = pica(&args);
    assert_eq!((ran.status, ran.out.as_str()), (Some(2), ""));
    assert!(ran.err.contains("put > before its name"), "{}", ran.err);
    // what is there is judged
    folder.list("out.csv", &apart([0x41]));
    assert!(pica(&args).out.contains("out.csv,ok,1,4,"));
}

#[test]
fn json_says_the_same_as_csv() {
    let folder = verdicts("judge-json");
    let ran = pica(&["judge".into(), folder.0.clone(), "--json".into()]);
    assert_eq!(ran.status, Some(2));
    let Json::Array(objects) = json(&ran.out) else {
        panic!("no array: {}", ran.out)
    };
    let text = |value: &Json| match value {
        Json::Null => String::new(),
        Json::Number(number) => number.to_string(),
        Json::Text(text) => text.clone(),
        other => panic!("{other:?}"),
    };
    let row = |object: &Json| columns().iter().map(|name| text(object.at(name))).collect();
    let again: Vec<Vec<String>> = objects.iter().map(row).collect();
    assert_eq!(again, rows(&folder));
    assert_eq!(objects[2].at("place"), &Json::Number(2));
    assert_eq!(objects[2].at("words"), &Json::Null);
}

/// What the library says of bytes, as a row has it: verdict, writes, number, place and differences.
fn by_the_library(bytes: &[u8]) -> [String; 5] {
    let word = |four: &[u8]| u32::from_le_bytes([four[0], four[1], four[2], four[3]]);
    let words: Vec<u32> = bytes.chunks_exact(4).map(word).collect();
    match pica::State::default().read(&words) {
        _ if bytes.len() % 4 != 0 => ["unreadable", "", "", "", ""].map(String::from),
        Ok(read) => {
            let (writes, differences) = (read.writes.to_string(), read.differences.to_string());
            ["ok", &writes, "", "", &differences].map(String::from)
        }
        Err(pica::Refusal { number, place }) => {
            let (number, place) = (number.to_string(), place.to_string());
            ["refused", "", &number, &place, ""].map(String::from)
        }
    }
}

#[test]
fn random_bytes_get_the_librarys_verdict() {
    let folder = Folder::new("judge-random");
    let mut random = Random(0x5DEE_CE66_D1CE_4E5B);
    let mut expected = Vec::new();
    for k in 0..300 {
        let length = random.below(120) * if k % 3 == 0 { 1 } else { 4 };
        let kept = if k % 2 == 0 { 0xFF } else { 0x03 }; // small numbers are more often commands
        let bytes: Vec<u8> = (0..length).map(|_| random.next() as u8 & kept).collect();
        folder.bytes(format!("{k:03}"), &bytes);
        expected.push(by_the_library(&bytes));
    }
    let found = rows(&folder)
        .into_iter()
        .map(|row| [1, 2, 4, 5, 9].map(|k| row[k].clone()));
    assert_eq!(found.collect::<Vec<_>>(), expected);
    for verdict in ["ok", "refused", "unreadable"] {
        assert!(expected.iter().any(|row| row[0] == verdict), "{verdict}");
    }
}

#[test]
fn standard_input_comes_in_pieces() {
    let bytes = bytes_of(&[1, 0x802F_0041, 2, 3]);
    let ran = pica_fed(&["judge", "-"], &[&bytes[..3], &bytes[3..9], &bytes[9..]]);
    assert_eq!(
        (ran.status, ran.out.as_str()),
        (Some(0), "-: ok, 3 writes (3 made a difference), 4 words\n")
    );
    let twice = pica_fed(&["judge", "-", "-"], &[&bytes]);
    assert_eq!(twice.status, Some(2));
    assert!(twice.out.starts_with(
        "-: ok, 3 writes (3 made a difference), 4 words\n-: unreadable: standard input can be read only once; "
    ));
}
