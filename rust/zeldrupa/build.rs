//! Links the proved static library, from target/staticlib of the repository or the folder in ZELDRUPA_LIB.

use std::env;
use std::path::PathBuf;

fn main() {
    println!("cargo:rerun-if-env-changed=ZELDRUPA_LIB");
    let folder = match env::var_os("ZELDRUPA_LIB") {
        Some(folder) => PathBuf::from(folder),
        None => PathBuf::from(env::var_os("CARGO_MANIFEST_DIR").expect("cargo sets it"))
            .join("../../target/staticlib"),
    };
    let archive = folder.join("libzeldrupa.a");
    println!("cargo:rerun-if-changed={}", archive.display());
    // No error: what links nothing, as clippy, needs no archive.
    if !archive.is_file() {
        println!("cargo:warning={} is missing; run: tools/staticlib", archive.display());
    }
    println!("cargo:rustc-link-search=native={}", folder.display());
    println!("cargo:rustc-link-lib=static=zeldrupa");
}
