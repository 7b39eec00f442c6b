//! Refusal 15, of a list whose words are no multiple of 4: in every subcommand that reads lists, and what to do about it.

mod common;

use std::ffi::OsStr;
use std::fs;
use std::path::{Path, PathBuf};

use common::check::{csv, json, Json};
use common::{bytes_of, example, pica, pica_fed, shell, Folder};

const MEANING: &str = "a list whose words are no multiple of 4";

fn run(name: &str, path: &Path, more: &[&str]) -> common::Ran {
    let args = [OsStr::new(name), path.as_os_str()];
    let more = more.iter().map(OsStr::new);
    pica(&args.into_iter().chain(more).collect::<Vec<_>>())
}

/// Whatever is in them: what their commands would be refused for isn't told.
#[test]
fn lists_of_other_lengths_are_refused() {
    let folder = Folder::new("lengths-other");
    let faulty = [1, 0x000F_023C, 1, 0x000F_0300, 1, 0x0007_00E8, 5];
    for length in [1, 2, 3, 5, 6, 7] {
        for words in [&faulty[..length], &[0; 7][..length]] {
            let path = folder.list("list", words);
            let told = format!("{}: refused 15: {MEANING}; ", path.display());
            let judged = run("judge", &path, &[]);
            assert_eq!(judged.status, Some(1));
            assert!(judged.out.starts_with(&told), "{}", judged.out);
            for name in ["writes", "show"] {
                let ran = run(name, &path, &[]);
                assert_eq!((ran.status, ran.out.as_str()), (Some(1), ""), "{name}");
                assert!(ran.err.starts_with(&format!("pica: {told}")), "{}", ran.err);
            }
            let pieces = run("pieces", &path, &[]);
            assert_eq!(pieces.status, Some(1));
            // it is about the whole list, and so in no part
            let lines: Vec<&str> = pieces.out.lines().collect();
            assert_eq!(lines.len(), 2, "{}", pieces.out);
            assert!(lines[1].starts_with(&format!("the list: refused 15: {MEANING}; ")));
        }
    }
}

/// 1 is told before 15.
#[test]
fn up_to_the_longest_list() {
    for (length, number) in [
        (65_534, Some(15)),
        (65_535, Some(15)),
        (65_536, None),
        (65_537, Some(1)),
        (65_538, Some(1)),
        (65_540, Some(1)),
    ] {
        let bytes = vec![0; 4 * length];
        for name in ["judge", "pieces"] {
            let ran = pica_fed(&[name, "-"], &[&bytes]);
            assert_eq!(ran.status, Some(i32::from(number.is_some())), "{length}");
            let told = number.map_or(String::from(": ok, 0 writes"), |number| {
                format!(": refused {number}: ")
            });
            assert!(ran.out.contains(&told), "{name} {length}: {}", ran.out);
        }
    }
}

#[test]
fn a_forecast_leaves_it_out() {
    let folder = Folder::new("lengths-forecast");
    let pair = folder.list("pair", &[1, 0x000F_0041]);
    let out = folder.path("figures.csv");
    let ran = run("forecast", &pair, &["--csv", out.to_str().unwrap()]);
    assert_eq!(ran.status, Some(1));
    assert!(ran.out.contains(&format!("  refused 15: {MEANING}; ")));
    let rows = csv(&fs::read_to_string(out).unwrap());
    assert_eq!(rows[1][1], "refused");
    assert!(rows[1][2..11].iter().all(String::is_empty));
    assert_eq!(rows[1][11], MEANING);
    assert!(rows[1][12].contains("a pair 0 0 behind them fills it"));
}

/// The same in CSV and JSON of `judge` and of `pieces`: the number, place 0, and neither a byte nor a part.
#[test]
fn as_csv_and_json() {
    let folder = Folder::new("lengths-rows");
    let pair = folder.list("pair", &[1, 0x000F_0041]);
    for name in ["judge", "pieces"] {
        let rows = csv(&run(name, &pair, &["--csv"]).out);
        let mut object = json(&run(name, &pair, &["--json"]).out);
        if let Json::Array(mut objects) = object {
            object = objects.remove(0);
        }
        for (column, value) in rows[0].iter().zip(&rows[1]) {
            let expected = match column.as_str() {
                "path" => pair.to_str().unwrap(),
                "verdict" => "refused",
                "number" => "15",
                "place" => "0",
                "meaning" => MEANING,
                "what_to_do" => pica::names::refusal_advice(15).unwrap(),
                _ => "",
            };
            assert_eq!(value, expected, "{name}: {column}");
            let in_json = match object.at(column) {
                Json::Null => String::new(),
                Json::Number(number) => number.to_string(),
                Json::Text(text) => text.clone(),
                other => panic!("{other:?}"),
            };
            assert_eq!(&in_json, expected, "{name}: {column}");
        }
    }
}

/// Only the words of all parts together are a multiple of 4.
#[test]
fn parts_may_have_any_length() {
    let folder = Folder::new("lengths-parts");
    let list = [1, 0x802F_0041, 2, 3, 7, 0x000F_0107, 0, 0];
    for cuts in [[1, 2], [3, 3], [5, 6], [7, 8], [0, 7]] {
        let [first, second] = cuts;
        let parts = [&list[..first], &list[first..second], &list[second..]];
        let names = ["a", "b", "c"];
        let paths: Vec<PathBuf> = (0..3).map(|k| folder.list(names[k], parts[k])).collect();
        let pieces = |paths: &[PathBuf]| pica(&[&[PathBuf::from("pieces")], paths].concat());
        let ran = pieces(&paths);
        assert_eq!(ran.status, Some(0), "{}", ran.out);
        let verdict = "\nthe list: ok, 4 writes (4 made a difference), 8 words\n";
        assert!(ran.out.ends_with(verdict), "{}", ran.out);
        // a last word too many, and one too few
        folder.list("d", &[0]);
        let more = pieces(&[paths.clone(), vec![folder.path("d")]].concat());
        assert!(
            more.out.contains("\nthe list: refused 15: "),
            "{}",
            more.out
        );
        let last = parts[2].len().saturating_sub(1);
        folder.list("c", &parts[2][..last]);
        let fewer = pieces(&paths);
        assert_eq!(fewer.status, Some(i32::from(!parts[2].is_empty())));
    }
}

/// What the help text of `judge` says to do: a list that lacks only its last pair is then accepted.
#[test]
fn a_filled_copy_is_accepted() {
    let folder = Folder::new("lengths-filled");
    assert!(pica(&["judge", "--help"]).out.contains("`truncate -s %16`"));
    let bytes = fs::read(example("captures/13-ending.bin")).unwrap();
    let copy = folder.bytes("copy", &bytes);
    assert!(run("judge", &copy, &[]).out.contains(": refused 15: "));
    let filled = shell("truncate -s %16 \"$1\" && \"$0\" judge \"$1\"", &[&copy]);
    assert_eq!(filled.status, Some(0), "{}", filled.out);
    assert_eq!(fs::read(&copy).unwrap()[bytes.len()..], [0; 8]);
    // without its last pair, which the chip never comes to, it says one write less
    let cut = pica_fed(&["writes", "-"], &[&bytes[..bytes.len() - 8]]);
    let end = "010,F,12345678\n";
    assert_eq!(run("writes", &copy, &[]).out, cut.out + end);
}

/// What is packed is never refused for its length.
#[test]
fn packed_lists_are_multiples_of_4() {
    for length in 0..40 {
        let lines: String = (0..length)
            .map(|k| format!("{:X},F,0\n", 0x40 + k % 5))
            .collect();
        let csv = format!("id,mask,value\n{lines}");
        let ran = pica_fed(&["pack", "-"], &[csv.as_bytes()]);
        assert_eq!((ran.status, ran.bytes.len() % 16), (Some(0), 0));
        let writes = pica_fed(&["writes", "-"], &[&ran.bytes]);
        assert_eq!(writes.out.lines().count(), length + 1);
    }
    let four = pica_fed(&["pack", "-"], &[b"41,F,0\n41,F,0\n"]);
    assert_eq!(four.bytes, bytes_of(&[0, 0x001F_0041, 0, 0]));
}

/// A long run in two parts, of 8,192 or 8,190 words and of 8 or 6: their list is filled once, and where each has an odd pair it needs no
/// filling.
#[test]
fn a_list_of_parts_is_filled_once() {
    for (apart, lone, words) in [
        (4096, 2, 8200),
        (4096, 1, 8200),
        (4095, 2, 8200),
        (4095, 1, 8196),
    ] {
        let first = ["2,F,0\n", "4,F,0\n"].into_iter().cycle().take(apart);
        let second = ["6,F,0\n"; 2].into_iter();
        let last = ["8,F,0\n", "A,F,0\n"].into_iter().take(lone);
        let csv: String = first.chain(second).chain(last).collect();
        let ran = pica_fed(&["pack", "-"], &[csv.as_bytes()]);
        assert_eq!((ran.status, ran.err.as_str()), (Some(0), ""));
        assert_eq!(ran.bytes.len(), 4 * words);
        let figures = pica_fed(&["forecast", "-"], &[&ran.bytes])
            .out
            .replace(',', "");
        let row: Vec<&str> = figures.lines().nth(1).unwrap().split_whitespace().collect();
        let (words, writes) = (words.to_string(), (apart + 2 + lone).to_string());
        assert_eq!(row, ["-", &words, &writes, &words, "0", "0.0", "%"]);
    }
}
