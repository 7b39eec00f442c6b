//! The crate's numbers against those of the C header, whose functions it calls.

use pica::{
    CELLS_LENGTH, FIELDS_LENGTH, FOG_LENGTH, LIGHT_LENGTH, LIST_LENGTH_MOST, RUN_LENGTH_MOST,
};

fn header() -> String {
    let path = concat!(env!("CARGO_MANIFEST_DIR"), "/../../include/pica.h");
    std::fs::read_to_string(path).expect("the header stands beside the crate")
}

/// What the header defines a name as.
fn defined(name: &str) -> usize {
    let text = header();
    let define = format!("#define {name} ");
    let values: Vec<&str> = text
        .lines()
        .filter_map(|line| line.strip_prefix(&define))
        .collect();
    assert_eq!(values.len(), 1, "{name}");
    values[0].parse().expect("a number")
}

#[test]
fn lengths() {
    for (name, length) in [
        ("PICA_CELLS_LENGTH", CELLS_LENGTH),
        ("PICA_FOG_LENGTH", FOG_LENGTH),
        ("PICA_LIGHT_LENGTH", LIGHT_LENGTH),
        ("PICA_FIELDS_LENGTH", FIELDS_LENGTH),
        ("PICA_LIST_LENGTH_MOST", LIST_LENGTH_MOST),
        ("PICA_RUN_LENGTH_MOST", RUN_LENGTH_MOST),
    ] {
        assert_eq!(defined(name), length, "{name}");
    }
}

#[test]
fn version() {
    let parts = ["MAJOR", "MINOR", "PATCH"].map(|p| defined(&format!("PICA_VERSION_{p}")));
    let [major, minor, patch] = parts;
    let version = format!("{major}.{minor}.{patch}");
    assert_eq!(version, env!("CARGO_PKG_VERSION"));
    // what the header's first lines say of it
    let said = format!("This is the header of version {version},");
    assert_eq!(header().matches(&said).count(), 1);
}
