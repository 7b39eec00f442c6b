//! `--json`.

use super::{list, show};

/// The names and values of an object of strings and numbers on one line, as they stand there.
fn members(line: &str) -> Vec<(&str, &str)> {
    let inside = line.trim().trim_end_matches(',');
    let inside = inside
        .strip_prefix('{')
        .and_then(|text| text.strip_suffix('}'));
    let mut rest = inside.unwrap_or_else(|| panic!("no object: {line}"));
    let mut met = Vec::new();
    while let Some((name, after)) = rest
        .strip_prefix('"')
        .and_then(|text| text.split_once("\": "))
    {
        let end = match after.strip_prefix('"') {
            Some(text) => text.find('"').unwrap() + 2,
            None => after.find(',').unwrap_or(after.len()),
        };
        met.push((name, &after[..end]));
        rest = after[end..].trim_start_matches(", ");
    }
    assert!(rest.is_empty(), "{line}");
    met
}

#[test]
fn as_json() {
    let output = show(&["examples/triangle-state.bin", "--json"], b"");
    assert_eq!(output.status.code(), Some(0));
    let text = String::from_utf8(output.stdout).unwrap();
    let lines: Vec<&str> = text.lines().collect();
    assert_eq!((lines[0], lines[lines.len() - 1]), ("[", "]"));
    let objects = &lines[1..lines.len() - 1];
    let (last, others) = objects.split_last().unwrap();
    assert!(others.iter().all(|line| line.ends_with("},")) && last.ends_with('}'));
    let fields = include_str!("triangle.txt").matches("\n  * ").count()
        + include_str!("triangle.txt").matches("\n  = ").count()
        - 2; // the two ranges
    assert_eq!(objects.len(), fields + 128 + 256 + 6);
    let culling = [
        ("kind", "\"field\""),
        ("id", "\"040\""),
        ("register", "\"GPUREG_FACECULLING_CONFIG\""),
        ("name", "\"culling\""),
        ("value", "2"),
        ("meaning", "\"Show Front\""),
        ("was", "0"),
        ("was_meaning", "\"Show Front+Back\""),
        ("mark", "\"changed\""),
    ];
    assert_eq!(members(objects[0]), culling);
    assert_eq!(
        members(last)[3..],
        [("value", "18411760"), ("mask", "15"), ("writes", "1")]
    );
    assert!(objects.iter().all(|line| members(line)[0].0 == "kind"));

    let empty = show(&["-", "--json"], b"");
    assert_eq!(String::from_utf8(empty.stdout).unwrap(), "[\n]\n");
    let undecoded = show(&["-", "--json"], &list(&[(0x116, 15, 1)]));
    assert_eq!(undecoded.status.code(), Some(1));
    let told = String::from_utf8(undecoded.stderr).unwrap();
    assert!(
        told.contains("refused 13: not decoded, because 116"),
        "{told}"
    );
}
