//! Links the proved static library. It is built at the repository's root, never from here.

use std::env;
use std::path::{Path, PathBuf};

fn main() {
    println!("cargo:rerun-if-env-changed=LOGBOOK_LIB_DIR");
    let folder = library_folder();
    let archive = folder.join("liblogbook_c.a");
    println!("cargo:rerun-if-changed={}", archive.display());
    println!("cargo:rustc-link-search=native={}", folder.display());
    println!("cargo:rustc-link-lib=static=logbook_c");
    // Only a warning: `cargo check` and `cargo doc` need no archive. A build ends at rustc's error.
    if !archive.is_file() {
        println!(
            "cargo:warning={} is missing: run `rt lib` in the repository's crates/logbook_c \
             first",
            archive.display()
        );
    }
}

fn library_folder() -> PathBuf {
    let package = env::var_os("CARGO_MANIFEST_DIR").unwrap_or_default();
    let usual = Path::new(&package).join("../../crates/logbook_c/out");
    let folder = env::var_os("LOGBOOK_LIB_DIR").map_or(usual, PathBuf::from);
    folder.canonicalize().unwrap_or(folder)
}
