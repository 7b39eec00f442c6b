//! Links the library under test.

use std::env;
use std::path::PathBuf;

fn main() {
    let folder = match env::var_os("PICA_LIB_DIR") {
        Some(folder) => PathBuf::from(folder),
        None => {
            let here = env::var_os("CARGO_MANIFEST_DIR").expect("cargo names the package's folder");
            PathBuf::from(here).join("../../target/staticlib")
        }
    };
    println!("cargo:rustc-link-search=native={}", folder.display());
    println!("cargo:rustc-link-lib=static=pica");
    println!(
        "cargo:rerun-if-changed={}",
        folder.join("libpica.a").display()
    );
    println!("cargo:rerun-if-env-changed=PICA_LIB_DIR");
}
