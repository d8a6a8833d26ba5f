//! Finds the static library of the proved code, which `rt lib` writes.

use std::path::Path;
use std::process::exit;

fn main() {
    let folder = Path::new(env!("CARGO_MANIFEST_DIR")).join("../../crates/pekdrav/out");
    let archive = folder.join("libpekdrav.a");
    println!("cargo:rerun-if-changed={}", archive.display());
    if !archive.exists() {
        eprintln!("crates/pekdrav/out/libpekdrav.a is missing: run `rt lib` in crates/pekdrav");
        exit(1);
    }
    println!("cargo:rustc-link-search=native={}", folder.display());
    println!("cargo:rustc-link-lib=static=pekdrav");
}
