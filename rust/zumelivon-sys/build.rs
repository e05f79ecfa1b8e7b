//! Finds the library: in the folder that ZUMELIVON_LIB names, or in the folder out of the repository, or lib of a release.

use std::path::{Path, PathBuf};

fn folder() -> Option<PathBuf> {
    if let Some(named) = std::env::var_os("ZUMELIVON_LIB") {
        return Some(PathBuf::from(named));
    }
    let top = Path::new(env!("CARGO_MANIFEST_DIR")).join("../..");
    ["out", "lib"].map(|it| top.join(it)).into_iter().find(|it| it.join("libzumelivon.a").is_file())
}

fn main() {
    println!("cargo::rerun-if-env-changed=ZUMELIVON_LIB");
    match folder() {
        Some(folder) if folder.join("libzumelivon.a").is_file() => {
            println!("cargo::rustc-link-search=native={}", folder.display());
            println!("cargo::rustc-link-lib=static=zumelivon");
            println!("cargo::rerun-if-changed={}", folder.join("libzumelivon.a").display());
        }
        _ => println!(
            "cargo::error=there is no libzumelivon.a: make it by tools/archive at the top of the repository, or set \
             ZUMELIVON_LIB to the folder that has it"
        ),
    }
}
