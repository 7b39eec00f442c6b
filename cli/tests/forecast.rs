//! `pica forecast`: figures by hand, bounds, times, the CSV and the picture.

mod common;

use std::ffi::{OsStr, OsString};
use std::fs;

use common::check::{csv, xml};
use common::{apart, example, pica, Folder, Ran};

/// What a line says after the name, with one space between its columns.
fn figures(out: &str, name: &str) -> String {
    let line = out.lines().find(|line| line.contains(name));
    let (_, after) = line
        .and_then(|line| line.split_once(name))
        .unwrap_or_else(|| panic!("no {name} in {out}"));
    split(after).join(" ")
}

fn split(words: &str) -> Vec<&str> {
    words.split_whitespace().collect()
}

fn forecast(folder: &Folder, more: &[&str]) -> Ran {
    let args: Vec<&OsStr> = [OsStr::new("forecast"), folder.0.as_os_str()]
        .into_iter()
        .chain(more.iter().map(OsStr::new))
        .collect();
    pica(&args)
}

/// Three lists whose shortest lengths are computed by hand, by the documents' examples: 41, 41, 42 take 6 words and a pair, three
/// rising ids 4, and 256 equal ids 258 and a pair. Each write is captured as a command of its own, of two words, with a pair behind
/// the first two lists.
fn by_hand(name: &str) -> Folder {
    let folder = Folder::new(name);
    folder.list("pair", &apart([0x41, 0x41, 0x42]));
    folder.list("rising", &apart([0x41, 0x42, 0x43]));
    folder.list("same", &apart([0x41; 256]));
    folder
}

#[test]
fn figures_by_hand() {
    let folder = by_hand("forecast-hand");
    let ran = forecast(&folder, &["--rate", "2"]);
    assert_eq!((ran.status, ran.err.as_str()), (Some(0), ""));
    assert_eq!(figures(&ran.out, "list"), "words writes shortest saved");
    assert_eq!(figures(&ran.out, "/pair"), "8 3 8 0 0.0 %");
    assert_eq!(figures(&ran.out, "/rising"), "8 3 4 4 50.0 %");
    assert_eq!(figures(&ran.out, "/same"), "512 256 260 252 49.2 %");
    assert_eq!(
        figures(&ran.out, "total of 3 lists"),
        "528 262 272 256 48.5 %"
    );
    let times = "
replayed at 2 words a second
  captured  0 h 04 min 24 s
  shortest  0 h 02 min 16 s
  saved     0 h 02 min 08 s
";
    assert!(ran.out.ends_with(times), "{}", ran.out);
}

#[test]
fn what_is_left_out_is_said() {
    let folder = by_hand("forecast-left-out");
    folder.list("jump", &apart([0x23C]));
    folder.bytes("cut", &[0; 9]);
    folder.list("blank", &[0; 8]);
    let ran = forecast(&folder, &[]);
    assert_eq!(ran.status, Some(2));
    let total = "536 262 272 264 49.3 % without 1 refused and 1 unreadable";
    assert_eq!(figures(&ran.out, "total of 4 lists"), total);
    assert_eq!(
        figures(&ran.out, "/blank"),
        "8 0 0 8 100.0 % sets nothing: every word is 0"
    );
    assert!(figures(&ran.out, "/jump").starts_with("refused 4 at word 0, byte 0 (0h): "));
    assert!(figures(&ran.out, "/cut").starts_with("unreadable: ends within a word (9 bytes)"));
    assert!(!ran.out.contains("replayed"));
}

/// 4,102 writes, each id eleven times and then the next, in commands of their own: no cut is sure to cost nothing. That the shortest
/// list has 4,476 words is by a search over every way to say the run.
fn steps() -> Vec<u32> {
    apart((0..4102).map(|k| 0x40 + k / 11))
}

#[test]
fn over_4096_writes_there_are_bounds() {
    let folder = Folder::new("forecast-bounds");
    folder.list("steps", &steps());
    let ran = forecast(&folder, &["--rate", "1"]);
    let expected = "8,204 4,102 4,480 3,724 45.4 % shortest at least 4,476, at most 4,480";
    assert_eq!(figures(&ran.out, "/steps"), expected);
    let times = "
  captured  2 h 16 min 44 s
  shortest  at least 1 h 14 min 36 s, at most 1 h 14 min 40 s
  saved     at least 1 h 02 min 04 s, at most 1 h 02 min 08 s
";
    assert!(ran.out.ends_with(times), "{}", ran.out);
}

/// One id 4,098 times: commands of 255 writes take 256 words, so that the shortest has 16 of them and 20 words for the last 18 writes.
#[test]
fn where_the_bounds_meet_one_number_is_told() {
    let folder = Folder::new("forecast-equal");
    folder.list("same", &apart([0x41; 4098]));
    folder.list("steps", &steps());
    let ran = forecast(&folder, &[]);
    assert_eq!(figures(&ran.out, "/same"), "8,196 4,098 4,116 4,080 49.8 %");
    let total = "16,400 8,200 8,596 7,804 47.6 % shortest at least 8,592, at most 8,596";
    assert_eq!(figures(&ran.out, "total of 2 lists"), total);
}

const COLUMNS: &str = "path verdict words writes shortest_at_least shortest_at_most saved_at_least saved_at_most \
                       captured_seconds shortest_at_least_seconds shortest_at_most_seconds meaning what_to_do";

#[test]
fn the_csv_has_a_row_for_each_list() {
    let (folder, out) = (by_hand("forecast-csv"), Folder::new("forecast-csv-out"));
    folder.list("jump", &apart([0x23C]));
    folder.list("long", &steps());
    let path = out.path("figures.csv");
    let path = path.to_str().unwrap();
    assert_eq!(
        forecast(&folder, &["--csv", path, "--rate", "4"]).status,
        Some(1)
    );
    let rows = csv(&fs::read_to_string(path).unwrap());
    assert_eq!(rows[0], split(COLUMNS));
    assert_eq!(rows[1][1], "refused");
    assert!(rows[1][2..11].iter().all(String::is_empty) && rows[1][11].contains("jump register"));
    let long = "ok 8204 4102 4476 4480 3724 3728 2051.000000 1119.000000 1120.000000";
    assert_eq!(rows[2][1..11], split(long));
    let rising = "ok 8 3 4 4 4 4 2.000000 1.000000 1.000000";
    assert_eq!(rows[4][1..11], split(rising));
    assert_eq!(rows.len(), 6);
    assert_eq!(
        forecast(&folder, &["--csv", path, "--force"]).status,
        Some(1)
    );
    let without_a_rate = csv(&fs::read_to_string(path).unwrap());
    assert_eq!(without_a_rate[4][7..11], ["4", "", "", ""]);
}

#[test]
fn the_picture_is_well_formed_and_has_the_figures() {
    let folder = by_hand("forecast-plot");
    folder.list("long&<odd>\u{1b}\u{FFFF}\"", &steps());
    folder.list("jump", &apart([0x23C]));
    let out = Folder::new("forecast-plot-out");
    let path = out.path("figures.svg");
    forecast(
        &folder,
        &["--plot", path.to_str().unwrap(), "--rate", "1000"],
    );
    let texts = xml(&fs::read_to_string(path).unwrap());
    let sum = "4 lists, without 1 refused: 8,732 words captured, 4,748 to 4,752 at the shortest, 3,980 to 3,984 saved (at least 45.6 %)";
    let expected = [
        sum,
        "captured",
        "shortest",
        "shortest, between at least and at most",
        "rising",
        "4 (\u{2212}50.0 %)",
        "pair",
        "4,476 to 4,480 (\u{2212}45.4 % or more)",
        "long&<odd>\\u{1b}\u{FFFD}\"",
        "10,000",
        "total of 4 lists",
        "Replayed at 1,000 words a second",
        "captured: 0 h 00 min 08.732 s; shortest: at least 0 h 00 min 04.748 s, at most 0 h 00 min 04.752 s",
    ];
    for text in expected {
        assert!(
            texts.iter().any(|found| found == text),
            "no {text} in {texts:#?}"
        );
    }
}

#[test]
fn a_picture_of_many_lists_draws_the_largest() {
    let folder = Folder::new("forecast-many");
    for k in 1..=45 {
        folder.list(format!("{k:02}"), &apart(vec![0x41; 2 * k]));
    }
    let out = Folder::new("forecast-many-out");
    let path = out.path("figures.svg");
    forecast(&folder, &["--plot", path.to_str().unwrap()]);
    let texts = xml(&fs::read_to_string(path).unwrap());
    assert!(texts.contains(&String::from("06")) && !texts.contains(&String::from("05")));
    // 2, 4, 6, 8 and 10 writes of one id: 4, 8, 8, 12, 12 words
    let others = "The 40 largest are drawn; the 5 others: 60 words captured, 44 at the shortest";
    assert!(texts.iter().any(|text| text == others), "{texts:#?}");
}

#[test]
fn nothing_accepted_is_no_error_of_its_own() {
    let out = Folder::new("forecast-none");
    let path = out.path("figures.svg").into_os_string();
    let ran = pica(&[
        OsString::from("forecast"),
        example("jump.bin").into(),
        "--plot".into(),
        path.clone(),
        "--rate".into(),
        "1".into(),
    ]);
    assert_eq!(ran.status, Some(1));
    assert!(
        ran.out.ends_with("  saved     0 h 00 min 00.000 s\n"),
        "{}",
        ran.out
    );
    xml(&fs::read_to_string(path).unwrap());
}

#[test]
fn wrong_rates_and_files_are_told() {
    let folder = by_hand("forecast-wrong");
    for (rate, expected) in [
        ("0", "above 0"),
        ("-5", "digits alone"),
        ("1,000", "digits alone"),
        ("", "digits alone"),
        ("1e99", "digits alone"),
    ] {
        let ran = forecast(&folder, &["--rate", rate]);
        assert_eq!((ran.status, ran.out.as_str()), (Some(2), ""), "{rate}");
        assert!(ran.err.contains(expected), "{rate}: {}", ran.err);
    }
    let one = folder.path("one").into_os_string().into_string().unwrap();
    let ran = forecast(&folder, &["--csv", &one, "--plot", &one]);
    assert_eq!(ran.status, Some(2));
    assert!(ran.err.contains("give two names"), "{}", ran.err);
}
