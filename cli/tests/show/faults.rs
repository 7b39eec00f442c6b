//! What is no accepted list, output that is lost, and random lists.

use std::fs;
use std::process::{Command, Stdio};

use super::{bytes, file, list, show};

/// Nothing is printed of a list that isn't read, and the status tells why.
#[test]
fn what_is_no_accepted_list() {
    let cut = file("show-cut.bin", &[1, 2, 3]);
    let fine = file("show-fine.bin", &list(&[(0x40, 15, 1)]));
    let pair = file("show-pair.bin", &bytes(&[1, 0x000F_0040]));
    let cases: [(&[&str], i32, &str); 7] = [
        (
            &[&pair],
            1,
            "refused 15: a list whose words are no multiple of 4; ",
        ),
        (&["examples/jump.bin"], 1, "refused 4 at word 2"),
        (
            &[&fine, "--from", "examples/jump.bin"],
            1,
            "refused 4 at word 2",
        ),
        (&["no/such.bin"], 2, "unreadable"),
        (&[&cut], 2, "ends within a word (3 bytes)"),
        (&["-", "--from", "-"], 2, "reads standard input once"),
        (
            &[&fine, "--all", "--changes"],
            2,
            "--all or --changes, not both",
        ),
    ];
    for (args, status, message) in cases {
        let output = show(args, b"");
        assert_eq!(output.status.code(), Some(status), "{args:?}");
        assert!(output.stdout.is_empty(), "{args:?}");
        let told = String::from_utf8(output.stderr).unwrap();
        assert!(told.contains(message), "{args:?}: {told}");
    }
    assert_eq!(show(&[], b"").status.code(), Some(2));
}

#[test]
fn output_that_is_lost() {
    let full = fs::OpenOptions::new()
        .write(true)
        .open("/dev/full")
        .unwrap();
    let mut command = Command::new(env!("CARGO_BIN_EXE_pica"));
    let path = concat!(
        env!("CARGO_MANIFEST_DIR"),
        "/../examples/triangle-state.bin"
    );
    let status = command
        .args(["show", path])
        .stdout(full)
        .stderr(Stdio::null())
        .status();
    assert_eq!(status.unwrap().code(), Some(2));
}

/// Any words end in a status, and never in a panic. Ids below 300 make half of the lists acceptable.
#[test]
fn random_lists() {
    let mut seed = 14_u64;
    let mut random = || {
        seed = seed.wrapping_mul(6_364_136_223_846_793_005).wrapping_add(1);
        (seed >> 32) as u32
    };
    let mut met = [0; 2];
    for round in 0..60 {
        let mut words: Vec<u32> = Vec::new();
        for _ in 0..40 {
            let header = 0xF_0000 + random() % 0x1D0 + ((random() & 1) << 31);
            words.extend([random(), if round % 4 == 3 { random() } else { header }]);
        }
        let output = show(&["-", "--all"], &bytes(&words));
        let status = output.status.code().unwrap();
        assert!((0..=1).contains(&status), "{output:?}");
        met[usize::from(output.stdout.is_empty())] += 1;
    }
    assert!(met[0] > 0 && met[1] > 0, "{met:?}");
}
