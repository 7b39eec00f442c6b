//! Tells the linker where the static library is: in the folder `PICA_LIB_DIR`, else where the repository's own build puts it.

use std::{env, path::PathBuf};

fn main() {
    let named = env::var_os("PICA_LIB_DIR").map(PathBuf::from);
    let own = PathBuf::from(env!("CARGO_MANIFEST_DIR")).join("../../target/staticlib");
    let folder = named.as_ref().unwrap_or(&own);
    let archive = folder.join("libpica.a");
    println!("cargo:rerun-if-env-changed=PICA_LIB_DIR");
    println!("cargo:rerun-if-changed={}", archive.display());
    println!("cargo:rustc-link-search=native={}", folder.display());
    println!("cargo:rustc-link-lib=static=pica");

    // Warnings, and no failure: what is only checked or documented needs no archive, and where one is needed the linker fails.
    if !archive.is_file() {
        let what_to_do = if named.is_some() {
            "PICA_LIB_DIR must name the folder that holds it"
        } else {
            "run `tests/native` in the repository's root, or set PICA_LIB_DIR to the folder that holds it"
        };
        println!(
            "cargo:warning=there is no {}: {what_to_do}",
            archive.display()
        );
    } else if named.is_none() && !env::var("TARGET").is_ok_and(|t| t.starts_with("x86_64-")) {
        println!(
            "cargo:warning={} is for x86-64 Linux, for which alone it is built: for another machine set PICA_LIB_DIR to a folder \
             that holds one",
            archive.display()
        );
    }
}
