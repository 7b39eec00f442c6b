//! `pica pieces`: parts of one list, and its verdict.

mod common;

use std::path::{Path, PathBuf};

use common::check::{csv, json, Json};
use common::{bytes_of, command, example, pica, pica_fed, shell, Folder, Ran, Random};

const LIST: [u32; 8] = [2, 0x000F_0040, 1, 0x801F_0041, 2, 0, 7, 0x0003_0107];

/// The parts as files of a folder, in their order.
fn parts(folder: &Folder, parts: &[&[u32]]) -> Vec<PathBuf> {
    let part = |(k, words): (usize, &&[u32])| folder.list(format!("{k:03}"), words);
    parts.iter().enumerate().map(part).collect()
}

fn pieces(paths: &[PathBuf]) -> Ran {
    pica(&[&[PathBuf::from("pieces")], paths].concat())
}

/// The last line but for that of the place.
fn verdict(ran: &Ran) -> &str {
    let line = ran.out.lines().find(|line| line.starts_with("the list: "));
    line.unwrap_or_else(|| panic!("no verdict: {}", ran.out))
}

/// The example of the help text, run where its paths lead.
#[test]
fn the_example_of_the_help_text() {
    let root = Path::new(env!("CARGO_MANIFEST_DIR")).join("..");
    let example = "pica pieces examples/pieces";
    assert!(pica(&["pieces", "--help"])
        .out
        .contains(&format!("\n  {example}\n")));
    let args: Vec<&str> = example.split(' ').skip(1).collect();
    let ran = command(&args).current_dir(root).output().unwrap();
    assert_eq!(ran.status.code(), Some(0));
    assert_eq!(
        String::from_utf8(ran.stdout).unwrap(),
        "\
examples/pieces/field-1.bin: 39 words, 39 so far
examples/pieces/field-2.bin: 0 words, 39 so far
examples/pieces/field-3.bin: 51 words, 90 so far
examples/pieces/field-4.bin: 49 words, 139 so far
examples/pieces/field-5.bin: 1 word, 140 so far
examples/pieces/field-6.bin: 2,712 words, 2,852 so far
the list: ok, 1,824 writes (159 made a difference), 2,852 words
"
    );
    assert_eq!(ran.stderr, b"");
}

#[test]
fn a_refusal_is_placed_in_the_list_and_in_its_part() {
    let jump = example("jump.bin");
    let ran = pieces(&[example("pieces"), jump.clone()]);
    assert_eq!((ran.status, ran.err.as_str()), (Some(1), ""));
    assert!(verdict(&ran).starts_with("the list: refused 4 at word 2854, byte 11416 (2C98h): "));
    let place = format!(
        "\nthe place is word 2, byte 8 (8h), of {}\n",
        jump.display()
    );
    assert!(ran.out.ends_with(&place), "{}", ran.out);

    // a command that is cut has its place where it began, in an earlier part; an empty part before it has no word
    let folder = Folder::new("pieces-cut");
    let cut: [&[u32]; 5] = [&LIST[..2], &[], &[1, 0x805F_0041], &[2, 3, 4, 5], &[]];
    let paths = parts(&folder, &cut);
    let ran = pieces(&paths);
    assert_eq!(ran.status, Some(1));
    assert!(verdict(&ran).starts_with("the list: refused 2 at word 2, byte 8 (8h): "));
    let place = format!(
        "\nthe place is word 0, byte 0 (0h), of {}\n",
        paths[2].display()
    );
    assert!(ran.out.ends_with(&place), "{}", ran.out);
}

/// Verdict, place and words are those of `pica judge` on the parts joined.
#[test]
fn random_cuttings_get_judges_verdict() {
    let mut random = Random(0x1234_5678_9ABC_DEF1);
    for list in [
        &LIST[..],
        &LIST[..7],
        &LIST[2..4],
        &[0; 6],
        &[0; 8],
        &[7, 0x0010_0041, 7, 0],
        &[],
        &[1, 0x000F_0041, 1, 0x002F_0042],
        &[1, 0x000F_0041, 1, 0x000F_0300, 5, 6, 7, 8],
        &[1, 0x802F_00E7, 2, 3, 4, 0x0007_00E8, 0, 0],
    ] {
        let folder = Folder::new("pieces-random");
        let joined = pica(&["judge".into(), folder.list("joined", list)]);
        let expected = joined.out.trim_end().split_once("joined: ").unwrap().1;
        for _ in 0..4 {
            let mut cuts: Vec<usize> = (0..4)
                .map(|_| random.below(list.len() as u64 + 1) as usize)
                .collect();
            cuts.extend([0, list.len()]);
            cuts.sort();
            let cut: Vec<&[u32]> = cuts
                .windows(2)
                .map(|ends| &list[ends[0]..ends[1]])
                .collect();
            let ran = pieces(&parts(&folder, &cut));
            assert_eq!(verdict(&ran), format!("the list: {expected}"), "{cuts:?}");
            assert_eq!(ran.status, joined.status);
        }
    }
}

#[test]
fn a_part_is_whole_words() {
    let folder = Folder::new("pieces-odd");
    let whole = folder.list("whole", &LIST);
    // five bytes and three are two words if joined, and yet no parts
    let paths = [
        whole.clone(),
        folder.bytes("five", &[0; 5]),
        folder.bytes("three", &[0; 3]),
    ];
    let ran = pieces(&paths);
    assert_eq!(ran.status, Some(2));
    assert!(
        ran.out
            .contains("five: unreadable: ends within a word (5 bytes); "),
        "{}",
        ran.out
    );
    assert_eq!(
        verdict(&ran),
        "the list: no verdict, because a part is unreadable"
    );
    assert!(!ran.out.contains("three"));

    let missing = pieces(&[whole, folder.path("missing")]);
    assert_eq!(missing.status, Some(2));
    assert!(missing
        .out
        .contains("missing: unreadable: there is no such file; check its name\n"));
}

#[test]
fn the_limit_is_on_the_joined_length() {
    let folder = Folder::new("pieces-limit");
    let long = folder.list("long", &vec![0; 65_535]);
    let (one, two) = (folder.list("one", &[0]), folder.list("two", &[0; 2]));
    let most = pieces(&[long.clone(), one]);
    let accepted = "the list: ok, 0 writes (0 made a difference), 65,536 words (sets nothing: every word is 0)";
    assert_eq!((most.status, verdict(&most)), (Some(0), accepted));

    let over = pieces(&[long, two, folder.path("not read")]);
    assert_eq!(over.status, Some(1));
    assert!(
        over.out.contains("two: over 65,536 words so far\n"),
        "{}",
        over.out
    );
    assert!(over
        .out
        .contains("\nthe list: refused 1: a list over 65,536 words; "));
    assert!(!over.out.contains("the place is") && !over.out.contains("not read"));
    // a pipe that never ends is left
    let endless = shell("\"$0\" pieces - < /dev/zero", &[] as &[&str]);
    assert_eq!(endless.status, Some(1));
    assert!(endless.out.contains("the list: refused 1: "));
}

#[test]
fn standard_input_is_a_part() {
    let folder = Folder::new("pieces-input");
    let bytes = bytes_of(&LIST);
    let first = folder.bytes("first", &bytes[..12]);
    let args = [PathBuf::from("pieces"), first.clone(), "-".into()];
    // what a pipe hands over may end within a word, as long as the part doesn't
    let ran = pica_fed(&args, &[&bytes[12..13], &bytes[13..22], &bytes[22..]]);
    assert_eq!(ran.status, Some(0));
    assert!(
        ran.out.ends_with(
            "\n-: 5 words, 8 so far\nthe list: ok, 4 writes (4 made a difference), 8 words\n"
        ),
        "{}",
        ran.out
    );

    let twice = pica_fed(&[&args[..], &["-".into()]].concat(), &[&bytes[12..]]);
    assert_eq!(twice.status, Some(2));
    assert!(twice
        .out
        .contains("-: unreadable: standard input can be read only once; name - once\n"));
}

const COLUMNS: &str =
    "verdict writes words number place byte meaning what_to_do part part_word part_byte differences";

/// CSV and JSON say the same of a list, and nothing of its parts before the verdict.
fn told(paths: &[PathBuf]) -> Vec<String> {
    let run = |form: &str| pica(&[&[PathBuf::from("pieces"), form.into()], paths].concat());
    let (rows, object) = (csv(&run("--csv").out), json(&run("--json").out));
    let names: Vec<&str> = COLUMNS.split(' ').collect();
    assert_eq!(rows.len(), 2);
    assert_eq!(rows[0], names);
    let text = |name: &&str| match object.at(name) {
        Json::Null => String::new(),
        Json::Number(number) => number.to_string(),
        Json::Text(text) => text.clone(),
        other => panic!("{other:?}"),
    };
    assert_eq!(rows[1], names.iter().map(text).collect::<Vec<_>>());
    rows[1].clone()
}

#[test]
fn csv_and_json_have_the_verdict() {
    let folder = Folder::new("pieces-csv");
    let good = parts(&folder, &[&LIST[..3], &LIST[3..]]);
    assert_eq!(told(&good)[..6], ["ok", "4", "8", "", "", ""]);
    assert_eq!(told(&good)[8..], ["", "", "", "4"]);

    let long = [&LIST[1..6], &[7, 0x001F_0107]].concat();
    let cut = parts(&folder, &[&LIST[..1], &long]);
    let row = told(&cut);
    assert_eq!(row[..6], ["refused", "", "", "2", "6", "24"]);
    assert_eq!(row[8..], [cut[1].to_str().unwrap(), "5", "20", ""]);

    let missing = folder.path("missing");
    let row = told(&[good[0].clone(), missing.clone()]);
    assert_eq!(
        (row[0].as_str(), row[6].as_str()),
        ("unreadable", "there is no such file")
    );
    assert_eq!(row[8..], [missing.to_str().unwrap(), "", "", ""]);
}
