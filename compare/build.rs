//! Links the archive that `rt lib` writes. It is looked for in
//! ../crates/zikorewi/out, or in the folder that ENGINE_ARCHIVES names.

use std::path::PathBuf;

const ARCHIVE: &str = "zikorewi";

fn main() {
    println!("cargo:rerun-if-env-changed=ENGINE_ARCHIVES");
    let folder = std::env::var_os("ENGINE_ARCHIVES")
        .map_or_else(|| PathBuf::from("../crates/zikorewi/out"), PathBuf::from)
        .canonicalize()
        .expect("no archive: run `make archive` first");
    println!("cargo:rustc-link-search=native={}", folder.display());
    let file = folder.join(format!("lib{ARCHIVE}.a"));
    println!("cargo:rerun-if-changed={}", file.display());
    println!("cargo:rustc-link-lib=static={ARCHIVE}");
}
