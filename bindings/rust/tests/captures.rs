//! What examples/README.md says of the captures: each row of its table against the file.

use std::{collections::BTreeMap, fs, path::PathBuf};

use pica::{packed, writes_of, Counts, Refusal, State, Write, RUN_LENGTH_MOST};

fn examples() -> PathBuf {
    PathBuf::from(concat!(env!("CARGO_MANIFEST_DIR"), "/../../examples"))
}

/// A file's words.
fn list(name: &str) -> Vec<u32> {
    let bytes = fs::read(examples().join("captures").join(name)).expect("the capture is there");
    assert_eq!(bytes.len() % 4, 0, "{name}");
    let word = |b: &[u8]| u32::from_le_bytes([b[0], b[1], b[2], b[3]]);
    bytes.chunks(4).map(word).collect()
}

/// The words of the shortest commands that say a run of at most 4,096 writes, without the pair that fills a list. The packer drops
/// writes with mask 0, so that a last command with header 0 is that pair.
fn before_filling(run: &[Write]) -> usize {
    let list = packed(run).expect("a list's writes can be packed");
    let (mut at, mut last) = (0, 0);
    while at < list.len() {
        last = at;
        at += ((list[at + 1] >> 20 & 0xFF) as usize + 3) & !1;
    }
    let is_filled = !list.is_empty() && list[last + 1] == 0;
    list.len() - if is_filled { 2 } else { 0 }
}

/// A run in parts that can be packed, each cut off where no command carries both the write before the cut and the one after it: there
/// the parts' commands, joined and filled once, are as short as one list for all of them.
fn parts(mut run: &[Write]) -> Vec<&[Write]> {
    let mut parts = Vec::new();
    while run.len() > RUN_LENGTH_MOST {
        let is_apart = |&cut: &usize| {
            let (before, after) = (run[cut - 1], run[cut]);
            before.mask != after.mask || ![before.id, before.id + 1].contains(&after.id)
        };
        let cut = (1..=RUN_LENGTH_MOST).rev().find(is_apart);
        let (part, rest) = run.split_at(cut.expect("the captures can be cut without loss"));
        parts.push(part);
        run = rest;
    }
    parts.push(run);
    parts
}

/// The row's columns behind the file's name and what it is: words, writes, differences, verdict, shortest.
fn row_of(name: &str) -> [String; 5] {
    let list = list(name);
    let words = list.len().to_string();
    let none = || "–".to_string();
    match State::default().read(&list) {
        Err(Refusal { number, place }) => {
            let verdict = format!("refused {number} at {place}");
            [words, none(), none(), verdict, none()]
        }
        Ok(Counts {
            writes,
            differences,
        }) => {
            let run = writes_of(&list).expect("what is read has writes");
            assert_eq!(run.len(), writes, "{name}");
            let commands: usize = parts(&run).into_iter().map(before_filling).sum();
            let shortest = commands.next_multiple_of(4);
            let [writes, differences, shortest] =
                [writes, differences, shortest].map(|number| number.to_string());
            [words, writes, differences, "ok".to_string(), shortest]
        }
    }
}

/// The table's rows by the file's name.
fn said() -> BTreeMap<String, Vec<String>> {
    let text = fs::read_to_string(examples().join("README.md")).expect("the page is there");
    let rows = text
        .lines()
        .filter_map(|line| line.strip_prefix("| `captures/"));
    let cells =
        |row: &str| -> Vec<String> { row.split('|').map(|c| c.trim().to_string()).collect() };
    rows.map(cells)
        .map(|row| (row[0].trim_end_matches('`').to_string(), row[2..7].to_vec()))
        .collect()
}

#[test]
fn the_table_of_the_captures() {
    let said = said();
    let mut names: Vec<String> = fs::read_dir(examples().join("captures"))
        .expect("the folder is there")
        .map(|file| {
            file.expect("a file")
                .file_name()
                .to_string_lossy()
                .into_owned()
        })
        .collect();
    names.sort();
    assert_eq!(
        said.keys().collect::<Vec<_>>(),
        names.iter().collect::<Vec<_>>()
    );
    for name in names {
        assert_eq!(said[&name], row_of(&name), "{name}");
    }
}
