//! `pica show` on real files: the built program is run, and what it prints is compared.

mod faults;
mod json;

use std::fs;
use std::io::Write;
use std::path::PathBuf;
use std::process::{Command, Output, Stdio};

/// Runs `pica show` in the repository's root.
fn show(args: &[&str], input: &[u8]) -> Output {
    let mut child = Command::new(env!("CARGO_BIN_EXE_pica"))
        .arg("show")
        .args(args)
        .current_dir(concat!(env!("CARGO_MANIFEST_DIR"), "/.."))
        .stdin(Stdio::piped())
        .stdout(Stdio::piped())
        .stderr(Stdio::piped())
        .spawn()
        .unwrap();
    // one that reads nothing may have ended by now
    let _ = child.stdin.take().unwrap().write_all(input);
    child.wait_with_output().unwrap()
}

fn bytes(words: &[u32]) -> Vec<u8> {
    words.iter().flat_map(|word| word.to_le_bytes()).collect()
}

/// A list of single writes: id, mask, value; and the pair that fills it.
fn list(writes: &[(u32, u32, u32)]) -> Vec<u8> {
    let command = |&(id, mask, value): &(u32, u32, u32)| [value, mask << 16 | id];
    let mut words: Vec<u32> = writes.iter().flat_map(command).collect();
    words.resize(words.len().next_multiple_of(4), 0);
    bytes(&words)
}

fn file(name: &str, bytes: &[u8]) -> String {
    let path = PathBuf::from(env!("CARGO_TARGET_TMPDIR")).join(name);
    fs::write(&path, bytes).unwrap();
    path.into_os_string().into_string().unwrap()
}

/// What is shown of these writes, on standard input.
fn shown(writes: &[(u32, u32, u32)], options: &[&str]) -> (i32, Vec<String>) {
    let output = show(&[&["-"], options].concat(), &list(writes));
    assert!(output.stderr.is_empty(), "{output:?}");
    let text = String::from_utf8(output.stdout).unwrap();
    let squeezed = |line: &str| line.split_whitespace().collect::<Vec<_>>().join(" ");
    (
        output.status.code().unwrap(),
        text.lines().map(squeezed).collect(),
    )
}

#[track_caller]
fn assert_has(lines: &[String], expected: &[&str]) {
    for line in expected {
        assert!(lines.iter().any(|l| l == line), "{line} in {lines:#?}");
    }
}

/// `triangle.txt` was compared with what `examples/README.md` says of the list, line by line.
#[test]
fn the_triangle() {
    let output = show(&["examples/triangle-state.bin"], b"");
    let expected = include_str!("triangle.txt");
    assert_eq!(String::from_utf8(output.stdout).unwrap(), expected);
    assert_eq!(output.status.code(), Some(0));
    assert!(expected.lines().all(|line| line.len() <= 120));
}

#[test]
fn only_the_bytes_that_a_mask_names_are_set() {
    let (status, lines) = shown(&[(0x107, 2, 0x1F71)], &[]);
    assert_eq!(status, 0);
    assert_has(
        &lines,
        &[
            "107 GPUREG_DEPTH_COLOR_MASK 00001F00",
            "* tests_depth_depth 1 Enable was 0, Disable",
        ],
    );
    assert!(!lines.iter().any(|line| line.contains("tests_depth_enable")));
    let (_, lines) = shown(&[(0x100, 4, u32::MAX)], &[]);
    assert_has(
        &lines,
        &["100 GPUREG_COLOR_OPERATION 00000000 writes: 1, none to a byte with held bits"],
    );
}

/// Neither a held register nor one that isn't: nothing of such a write is shown, nor is it counted.
#[test]
fn writes_with_mask_0_are_left_out() {
    let (status, lines) = shown(&[(0x40, 0, 3), (0x10, 0, 1)], &[]);
    assert_eq!(status, 0);
    let head = "-: 0 writes, 4 words, against a state of zeros (sets nothing: every mask is 0)";
    assert_eq!(lines, [head, "", "Nothing that is held is set."]);

    let plain = shown(&[(0x40, 15, 3), (0x10, 15, 1)], &["--json"]);
    let mixed = [(0x42, 0, 5), (0x40, 15, 3), (0x40, 0, 1), (0x10, 15, 1)];
    assert_eq!(shown(&mixed, &["--json"]), plain);
}

#[test]
fn numbers_by_their_kind() {
    let writes = [
        (0x40, 15, 3),
        (0x41, 15, 0x7F_0000),
        (0x44, 15, 0x3F00_0000),
        (0x48, 15, 0xC0_8000),
        (0x68, 15, 0x01FF_0200),
        (0xE0, 15, 0x0300_0000),
        (0x105, 15, 0xC8_00_00),
        (0x112, 15, 7),
    ];
    let (status, lines) = shown(&writes, &[]);
    assert_eq!(status, 0);
    assert_has(
        &lines,
        &[
            "* culling 3 Same as 0 was 0, Show Front+Back",
            "* viewport_width 7F0000 no plain number was 0",
            "* viewport_invh 3F000000 1 was 0",
            "* clip_data0 C08000 -3 was 0",
            "* viewport_xy_x 200 -512 was 0",
            "* viewport_xy_y 1FF 511 was 0",
            "* update_unknown 3 3 was 0",
            "* tests_stencil_reference C8 200 was 0",
            "* buffers_colour_reading 7 Same as F? was 0, Disable",
        ],
    );
}

#[test]
fn what_was_before() {
    let first = file("show-first.bin", &list(&[(0x40, 15, 2), (0x102, 15, 3)]));
    let second = list(&[
        (0x40, 15, 2),
        (0x102, 15, 9),
        (0x102, 15, 11),
        (0x110, 15, 1),
    ]);
    let output = show(&["-", "--from", &first], &second);
    let text = String::from_utf8(output.stdout).unwrap();
    let fields: Vec<&str> = text.lines().skip(2).collect();
    let expected = [
        "040 GPUREG_FACECULLING_CONFIG              00000002",
        "  = culling                                       2  Show Front",
        "102 GPUREG_LOGIC_OP                        0000000B   writes: 2",
        "  * blending_logic_op                             B  XOR                           was 3, Copy",
        "",
        "Written and not held, with the last value:",
        "110 GPUREG_FRAMEBUFFER_INVALIDATE          00000001",
    ];
    assert_eq!(fields, expected);
    assert!(text.starts_with(&format!(
        "-: 4 writes, 8 words, against what {first} leaves\n"
    )));

    let changes = show(&["-", "--changes", "--from", &first], &second);
    let text = String::from_utf8(changes.stdout).unwrap();
    assert_eq!(text.lines().skip(2).collect::<Vec<_>>(), expected[2..4]);

    // the other way round, and nothing changes
    let again = show(
        &[&first, "--changes", "--from", "-"],
        &fs::read(&first).unwrap(),
    );
    let text = String::from_utf8(again.stdout).unwrap();
    assert!(text.ends_with("against what - leaves\n\nNothing that is held is changed.\n"));
}

#[test]
fn tables_and_their_indices() {
    let mut writes = vec![(0xE6, 15, 126)];
    writes.extend((0..4).map(|k| (0xE8 + k, 15, 0x80_0000 + k)));
    writes.extend([(0x1C5, 15, 0x17FE), (0x1C8, 15, 0x00_1800), (0x1CF, 15, 0)]);
    writes.extend([(0x1C5, 15, 0x0200), (0x1C8, 15, 5), (0x1C5, 15, 0x0803)]);
    writes.extend([(0x1C9, 15, 0x800), (0x1C9, 15, 0x800)]);
    let (status, lines) = shown(&writes, &[]);
    assert_eq!(status, 0);
    let at = lines.iter().position(|line| line == "Fog table: 4 writes");
    let expected = [
        "Fog table: 4 writes",
        "* 0-1 800002 to 800003, value 0.5 to 0.5",
        "* 126-127 800000 to 800001, value 0.5 to 0.5",
        "",
        "Light table 8, SP0: 2 writes",
        "* 3-4 000800 in all of them, value 0.5",
        "",
        "Light table 17, DA7: 2 writes",
        "* 254 001800, value 0.5, difference 1h was 000000, value 0, difference 0h",
        "= 255 000000, value 0, difference 0h",
        "",
        "Light table 2, which has no name: 1 write, nothing kept",
    ];
    assert_eq!(lines[at.unwrap()..], expected);
    assert_has(
        &lines,
        &[
            "* fog_index 2 2 was 0",
            "* light_port_index 5 5 was 0",
            "* light_port_table 8 SP0 was 0, D0",
        ],
    );

    let (_, lines) = shown(&writes, &["--entries"]);
    assert_has(
        &lines,
        &["* 1 800003, value 0.5, difference 3h was 000000, value 0, difference 0h"],
    );
    // an index that rises with an upload and isn't written
    let (_, lines) = shown(&[(0xE8, 15, 0)], &[]);
    assert_has(
        &lines,
        &[
            "0E6 GPUREG_FOG_LUT_INDEX 00000001 by uploads",
            "= 0 000000, value 0, difference 0h",
        ],
    );
}

/// Every field has one line, in the order of the C enumeration; what the list doesn't touch has no mark.
#[test]
fn all_fields() {
    let output = show(&["-", "--all"], &list(&[(0x1C5, 15, 0x100)]));
    let text = String::from_utf8(output.stdout).unwrap();
    let names: Vec<&str> = text
        .lines()
        .filter(|line| line.starts_with("  "))
        .map(|line| line[4..].split_whitespace().next().unwrap())
        .collect();
    let expected = pica::names::FIELDS.map(|field| field.name);
    assert_eq!(names, expected);
    let marked: Vec<&str> = text
        .lines()
        .filter(|line| line.starts_with("  *") || line.starts_with("  ="))
        .collect();
    assert_eq!(marked.len(), 2, "{marked:#?}");
    assert_eq!(text.matches("   not written\n").count(), 65);
}

#[test]
fn a_code_without_a_name() {
    let (status, lines) = shown(&[(0xF0, 15, 0x0700_0003), (0x40, 15, 1)], &[]);
    assert_eq!(status, 1);
    assert_eq!(
        lines[1],
        "refused 13: not decoded, because 0F0 GPUREG_TEXENV4_SOURCE has a code without a name"
    );
    assert_has(
        &lines,
        &[
            "* culling 1 Show Back was 0, Show Front+Back",
            "* stage4_source_alpha2 7 no name was 0, Primary colour",
            "* stage4_source_rgb0 3 Texture 0 was 0, Primary colour",
        ],
    );
    let (status, lines) = shown(&[(0xC2, 15, 0x0007_0006)], &[]);
    assert_eq!(status, 1);
    assert!(lines[1].ends_with("has an alpha mode 6 or 7 without RGB mode 7"));
    assert_has(
        &lines,
        &["* stage0_combiner_alpha 7 Dot3 RGBA was 0, Replace"],
    );
}

#[test]
fn registers_that_are_not_held() {
    let writes = [
        (0x10, 15, 1),
        (0x280, 3, 5),
        (0x280, 1, 0x7FFF),
        (0x45, 15, 2),
    ];
    let (status, lines) = shown(&writes, &[]);
    assert_eq!(status, 0);
    let expected = [
        "Nothing that is held is set.",
        "",
        "Written and not held, with the last value:",
        "010 GPUREG_FINALIZE 00000001",
        "045 GPUREG_0045 00000002",
        "280 GPUREG_GSH_BOOLUNIFORM 00007FFF mask 1 writes: 2",
    ];
    assert_eq!(lines[2..], expected);
}
