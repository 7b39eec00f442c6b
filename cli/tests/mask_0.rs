//! Writes with mask 0, which set nothing: they are checked, left out of what is packed, and not among a list's writes.

mod common;

use common::{bytes_of, pica_fed, shell, Folder, Ran};

fn pack(csv: &str) -> Ran {
    pica_fed(&["pack", "-"], &[csv.as_bytes()])
}

/// The note on writes that were left out.
fn left_out(what: &str) -> String {
    format!("pica: {what} with mask 0 left out: mask 0 sets nothing\n")
}

#[test]
fn they_are_dropped_and_part_no_neighbours() {
    let ran = pack("41,F,1\n107,0,2\n41,F,3\n");
    assert_eq!(ran.bytes, bytes_of(&[1, 0x001F_0041, 3, 0]));
    assert_eq!((ran.status, ran.err), (Some(0), left_out("1 write")));
    let ran = pack("0,0,0\n41,f,1\n41,0,9\n300h,1,0\n");
    assert_eq!((ran.status, ran.bytes.len()), (Some(1), 0));
    // nothing is packed, so nothing was left out
    assert!(ran.err.starts_with("pica: -: line 4: refused 3: "));
    assert_eq!(ran.err.lines().count(), 1);
    let ran = pack("id,mask,value\n41,0,1\n42,0,2\n");
    assert_eq!((ran.status, ran.bytes.len()), (Some(0), 0));
    assert_eq!(ran.err, left_out("2 writes"));
    assert_eq!(pack("41,F,1\n").err, "");
}

/// A refused write is told by its line, however many lines with mask 0 are before it, and with mask 0 too.
#[test]
fn they_are_checked_and_count_for_lines() {
    for before in [0, 1, 4095, 4096, 5000, 9000] {
        for (line, number) in [
            ("300,0,1", 3),
            ("23C,0,1", 4),
            ("E8,0,1", 5),
            ("41,10,1", 9),
        ] {
            for (between, behind) in [("41,0,7\n", "23D,F,1\n"), ("41,F,7\n", "23D,0,1\n")] {
                let csv = between.repeat(before) + line + "\n" + behind;
                let ran = pack(&csv);
                let start = format!(": refused {number}: ");
                let at = ran.err.split_once(&start).expect("a refusal").0;
                let told = at.trim_start_matches("pica: -: line ").replace(',', "");
                assert_eq!(told, (before + 1).to_string(), "{line}");
                assert_eq!((ran.status, ran.bytes.len()), (Some(1), 0));
            }
        }
    }
}

/// Each id eleven times and then the next, so many lines.
fn steps(length: usize) -> Vec<String> {
    let line = |k| format!("{:X},F,{k:X}\n", 0x40 + k / 11);
    (0..length).map(line).collect()
}

/// Before the first write and behind the last, within a command, at the limit of 4,096, at every place: the list is that of the run
/// without them, and so is what is said of its length.
#[test]
fn a_long_run_is_packed_as_if_they_were_not_there() {
    for (length, told) in [
        (4095, ""),
        (4096, ""),
        (4100, ""),
        (4102, "pica: over 4,096 writes, packed in parts: 4,480 words, at most 4 more than the shortest list\n"),
    ] {
        let lines = steps(length);
        let plain = pack(&lines.concat());
        assert_eq!((plain.status, plain.err.as_str()), (Some(0), told));
        let kinds: [(&str, fn(usize, usize) -> bool); 5] = [
            ("all", |_, _| true),
            ("first", |k, _| k == 0),
            ("last", |k, length| k == length),
            ("limit", |k, _| [4080, 4095, 4096, 4097].contains(&k)),
            ("within commands", |k, _| k % 5 == 3),
        ];
        for (kind, has) in kinds {
            let (mut csv, mut dropped) = (String::new(), 0);
            for k in 0..=length {
                if has(k, length) {
                    csv.push_str("2FF,0,1\n1C4,0,FFFFFFFF\n");
                    dropped += 2;
                }
                csv.extend(lines.get(k).map(String::as_str));
            }
            let ran = pack(&csv);
            assert_eq!(ran.status, Some(0), "{kind}: {}", ran.err);
            assert!(ran.bytes == plain.bytes, "{length}, {kind}");
            let dropped = format!("{} writes", grouped(dropped));
            assert_eq!(ran.err, left_out(&dropped) + told);
        }
    }
}

/// Digits in groups of three, for numbers of at most six.
fn grouped(number: usize) -> String {
    match (number / 1000, number % 1000) {
        (0, rest) => rest.to_string(),
        (thousands, rest) => format!("{thousands},{rest:03}"),
    }
}

/// The most writes that a list can say, and so many lines, count those that are left.
#[test]
fn they_take_no_room_in_a_list() {
    let many = "41,0,1\n".repeat(70_000);
    let ran = pack(&format!("{many}41,F,1\n{many}41,F,2\n"));
    assert_eq!(ran.bytes, bytes_of(&[1, 0x001F_0041, 2, 0]));
    assert_eq!(ran.err, left_out("140,000 writes"));
    // of an endless run of them no more is read than any list's writes take
    let ran = shell("yes 41,0,1 | \"$0\" pack -", &[""]);
    assert_eq!(ran.status, Some(2));
    assert!(ran.err.contains("over 64 MB"), "{}", ran.err);
}

/// A command of mask 0 between two that one could carry, one with extra parameters and a padding word, and the pair at the end.
const LIST: [u32; 12] = [
    1,
    0x000F_0041,
    9,
    0x8010_0107,
    8,
    7,
    2,
    0x000F_0042,
    3,
    0x0003_0107,
    0,
    0,
];

#[test]
fn they_are_not_among_a_lists_writes() {
    let bytes = bytes_of(&LIST);
    let fed = |args: &[&str]| pica_fed(args, &[&bytes]);
    let lines = "id,mask,value\n041,F,00000001\n042,F,00000002\n107,3,00000003\n";
    assert_eq!(fed(&["writes", "-"]).out, lines);
    let verdict = "ok, 3 writes (3 made a difference), 12 words\n";
    assert_eq!(fed(&["judge", "-"]).out, format!("-: {verdict}"));
    assert!(fed(&["pieces", "-"])
        .out
        .ends_with(&format!("the list: {verdict}")));
    // 41 and 42 in four words, 107 in two, and the pair
    let figures = fed(&["forecast", "-"]).out;
    let row: Vec<&str> = figures.lines().nth(1).unwrap().split_whitespace().collect();
    assert_eq!(row, ["-", "12", "3", "8", "4", "33.3", "%"]);
}

/// What is refused of other writes is refused of these.
#[test]
fn a_list_is_refused_for_them_too() {
    let folder = Folder::new("mask-0-refused");
    for (id, number) in [(0x300, 3), (0x23C, 4), (0x23D, 4), (0xE8, 5), (0x1CF, 5)] {
        let path = folder.list("list", &[1, 0x000F_0041, 0, id]);
        let ran = common::pica(&["judge".into(), path]);
        assert_eq!(ran.status, Some(1));
        let told = format!(": refused {number} at word 2, byte 8 (8h): ");
        assert!(ran.out.contains(&told), "{}", ran.out);
    }
}
