//! Links the archive of the library: from AZUNKEFOGO_ARCHIVE_DIR if it is set, or else from
//! target/native of the repository that this crate stands in.

use std::env;
use std::path::PathBuf;
use std::process::exit;

const VARIABLE: &str = "AZUNKEFOGO_ARCHIVE_DIR";

fn archive_dir() -> PathBuf {
    if let Some(chosen) = env::var_os(VARIABLE) {
        return PathBuf::from(chosen);
    }
    let here = env::var_os("CARGO_MANIFEST_DIR").expect("cargo names the crate's folder");
    PathBuf::from(here).join("../../target/native")
}

fn main() {
    println!("cargo:rerun-if-env-changed={VARIABLE}");
    let dir = archive_dir();
    let archive = dir.join("libexport.a");
    println!("cargo:rerun-if-changed={}", archive.display());
    if !archive.is_file() {
        eprintln!("azunkefogo: there is no {}", archive.display());
        eprintln!("azunkefogo: run scripts/archive in the repository's root to build it,");
        eprintln!("azunkefogo: or set {VARIABLE} to the folder that holds libexport.a");
        exit(1);
    }
    println!("cargo:rustc-link-search=native={}", dir.display());
    println!("cargo:rustc-link-lib=static=export");
}
