//! The scripts `pica` and `judge` of the repository's root: when they build, and what they hand on. What they build with is stood in
//! for by small scripts, so that nothing is proved and nothing compiled.

mod common;

use std::fs;
use std::os::unix::fs::{symlink, PermissionsExt};
use std::path::Path;
use std::process::{Command, Output};

use common::Folder;

/// A repository with nothing but what the script looks at.
fn repository(name: &str, script: &str) -> Folder {
    let folder = Folder::new(name);
    let own = Path::new(env!("CARGO_MANIFEST_DIR"))
        .join("..")
        .join(script);
    fs::copy(own, folder.path(script)).unwrap();
    for source in [
        "crates/a/src/main.rt",
        "crates/verdict/src/main.rt",
        "crates.txt",
        "cli/Cargo.toml",
        "bindings/rust/Cargo.toml",
    ] {
        folder.bytes(source, b"");
    }
    program(
        &folder,
        "tests/native",
        "mkdir -p target/native && echo > target/native/libpica.a",
    );
    program(&folder, "bin/rt", "exit 1");
    program(&folder, "bin/cargo", "exit 1");
    link_tools(&folder);
    folder
}

fn program(folder: &Folder, name: &str, lines: &str) {
    let path = folder.bytes(name, format!("#!/usr/bin/env bash\n{lines}\n").as_bytes());
    fs::set_permissions(path, fs::Permissions::from_mode(0o755)).unwrap();
}

const TOOLS: &str =
    "bash cat chmod cp dirname env find flock head mkdir mktemp mv readlink rm tail tee touch uname wc";

/// Links to the tools that scripts need, so that neither `rt` nor `cargo` is on the path but those of the test.
fn link_tools(folder: &Folder) {
    let paths = std::env::var_os("PATH").unwrap_or_default();
    for tool in TOOLS.split(' ') {
        let found = std::env::split_paths(&paths)
            .map(|path| path.join(tool))
            .find(|path| path.is_file());
        if let Some(path) = found {
            symlink(path, folder.path("bin").join(tool)).unwrap();
        }
    }
}

/// Runs a script with the stand-ins on the path.
fn run(folder: &Folder, script: impl AsRef<Path>, args: &[&str]) -> Output {
    let mut command = Command::new(folder.path(script));
    command
        .args(args)
        .env("PATH", folder.path("bin"))
        .current_dir("/");
    command.output().unwrap()
}

fn err(output: &Output) -> String {
    String::from_utf8_lossy(&output.stderr).into_owned()
}

fn out(output: &Output) -> String {
    String::from_utf8_lossy(&output.stdout).into_owned()
}

const LIBRARY: &str = "pica: proving and building the library, a few minutes the first time ..\n";
const PROGRAM: &str = "pica: building the program ..\n";

/// A `cargo` that makes a program, which prints its arguments and ends with status 1.
fn cargo(folder: &Folder) {
    let made = "printf '#!/usr/bin/env bash\\nprintf \"<%%s>\" \"$@\"\\nexit 1\\n' > \"$CARGO_TARGET_DIR/release/pica\"";
    let lines = format!("mkdir -p \"$CARGO_TARGET_DIR/release\" && {made} && chmod +x \"$CARGO_TARGET_DIR/release/pica\"");
    program(
        folder,
        "bin/cargo",
        &format!("[ \"$1\" = build ] && [ -f \"$PICA_LIB_DIR/libpica.a\" ] && {lines}"),
    );
}

#[test]
fn pica_builds_what_has_changed_and_no_more() {
    let folder = repository("scripts-pica", "pica");
    cargo(&folder);
    let built = |args: &[&str]| {
        let output = run(&folder, "pica", args);
        assert_eq!(output.status.code(), Some(1), "{}", err(&output));
        (out(&output), err(&output))
    };
    let both = format!("{LIBRARY}{PROGRAM}");
    assert_eq!(
        built(&["a b", "", "--x"]),
        (String::from("<a b><><--x>"), both.clone())
    );
    assert_eq!(built(&["a"]).1, "");
    folder.bytes("cli/src/new.rs", b"");
    assert_eq!(built(&["a"]).1, PROGRAM);
    folder.bytes("crates/a/src/main.rt", b"changed");
    assert_eq!(built(&["a"]).1, both);
    fs::remove_file(folder.path("crates/a/src/main.rt")).unwrap();
    assert_eq!(built(&["a"]).1, both);
    fs::remove_file(folder.path("target/cargo/release/pica")).unwrap();
    assert_eq!(built(&["a"]).1, PROGRAM);
    symlink(folder.path("pica"), folder.path("link")).unwrap();
    let through_link = run(&folder, "link", &["a"]);
    assert_eq!(
        (out(&through_link), err(&through_link)),
        (String::from("<a>"), String::new())
    );
}

#[test]
fn pica_says_why_it_cannot_build() {
    let folder = repository("scripts-pica-fails", "pica");
    let failed = || {
        let output = run(&folder, "pica", &["--version"]);
        assert_eq!((output.status.code(), out(&output).as_str()), (Some(2), ""));
        err(&output)
    };
    program(&folder, "bin/cargo", "echo 'something is wrong'; exit 101");
    let told = failed();
    assert!(
        told.contains("something is wrong\npica: building the program failed: "),
        "{told}"
    );
    fs::remove_file(folder.path("bin/cargo")).unwrap();
    let told = failed();
    assert!(
        told.contains("building the program needs `cargo`"),
        "{told}"
    );
    program(&folder, "tests/native", "echo 'no proof'; exit 1");
    let told = failed();
    assert!(
        told.contains("no proof\npica: building the library failed: "),
        "{told}"
    );
    fs::remove_file(folder.path("bin/rt")).unwrap();
    let told = failed();
    assert!(told.contains("building the library needs `rt`"), "{told}");
    fs::remove_dir_all(folder.path("target")).unwrap();
    folder.bytes("target", b"in the way");
    failed();
}

/// An `rt` that makes a program which says `refused` of what begins with r, `input` of an odd number of bytes, else `ok`.
#[cfg(target_arch = "x86_64")]
fn rt(folder: &Folder) {
    let copy = folder.path("copy").display().to_string();
    let lines = format!(
        "mkdir -p out
cat > out/verdict << 'END'
#!/usr/bin/env bash
bytes=$(tee '{copy}' | wc -c)
case $(head -c 1 '{copy}') in
    r) echo refused 4 at 2 ;;
    *) [ $((bytes % 4)) = 0 ] && echo ok $bytes || echo input ;;
esac
END
chmod +x out/verdict"
    );
    program(folder, "bin/rt", &lines);
}

/// The small program is for x86-64, and an emulator runs it elsewhere, which isn't stood in for.
#[cfg(target_arch = "x86_64")]
#[test]
fn judge_tells_each_file_and_the_worst_by_its_status() {
    let folder = repository("scripts-judge", "judge");
    rt(&folder);
    let file = |name: &str, bytes: &[u8]| folder.bytes(name, bytes).display().to_string();
    let (good, refused, odd) = (
        file("good", b"12345678"),
        file("bad", b"r..."),
        file("odd", b"seven.."),
    );
    let missing = folder.path("missing").display().to_string();
    let first = run(&folder, "judge", &[&good, &missing, &refused, &odd]);
    let lines = [
        format!("{good}: ok 8"),
        format!("{missing}: unreadable: no such file, or no permission"),
        format!("{refused}: refused 4 at 2"),
        format!("{odd}: input (7 bytes, no whole words)"),
    ];
    assert_eq!(out(&first).lines().collect::<Vec<_>>(), lines);
    assert_eq!(first.status.code(), Some(2));
    assert_eq!(
        err(&first),
        "judge: proving and building the program, a minute or two the first time ..\n"
    );
    let second = run(&folder, "judge", &[&refused, &good]);
    assert_eq!((second.status.code(), err(&second).as_str()), (Some(1), ""));
    assert_eq!(run(&folder, "judge", &[&good]).status.code(), Some(0));
    let whole = folder.0.display().to_string();
    let third = run(&folder, "judge", &[&whole, &good]);
    let told = format!("{whole}: unreadable: Is a directory\n{good}: ok 8\n");
    assert_eq!((third.status.code(), out(&third)), (Some(2), told));
}

#[test]
fn judges_help_that_is_lost_is_told_by_the_status() {
    let folder = repository("scripts-judge-help", "judge");
    for (file, status) in [("/dev/full", 2), ("/dev/null", 0)] {
        let to = fs::OpenOptions::new().write(true).open(file).unwrap();
        let mut command = Command::new(folder.path("judge"));
        let ended = command
            .arg("--help")
            .env("PATH", folder.path("bin"))
            .stdout(to)
            .output();
        assert_eq!(ended.unwrap().status.code(), Some(status), "{file}");
    }
}

#[cfg(target_arch = "x86_64")]
#[test]
fn judge_builds_again_and_works_through_a_link() {
    let folder = repository("scripts-judge-again", "judge");
    rt(&folder);
    let good = folder.bytes("good", b"12345678").display().to_string();
    assert!(err(&run(&folder, "judge", &[&good])).contains("building"));
    folder.bytes("crates/a/src/main.rt", b"changed");
    assert!(err(&run(&folder, "judge", &[&good])).contains("building"));
    symlink(folder.path("judge"), folder.path("link")).unwrap();
    let through_link = run(&folder, "link", &[&good]);
    assert_eq!(
        (out(&through_link), err(&through_link)),
        (format!("{good}: ok 8\n"), String::new())
    );
    assert!(out(&run(&folder, "link", &["--help"])).starts_with("Usage: ./judge FILE"));
}
