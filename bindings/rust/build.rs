//! Links the static library of the memory manager, and says how to make it where it is missing.
use std::env;
use std::path::{Path, PathBuf};
use std::process;

const LIB_DIR: &str = "PAGZIMUL_LIB_DIR";
const ARCHIVE: &str = "libpagzimul.a";

/// Where the library is made, from this manifest.
const MADE_IN: &str = "../../target/staticlib";

fn main() {
    println!("cargo:rerun-if-env-changed={LIB_DIR}");
    println!("cargo:rerun-if-changed=build.rs");
    let dir = lib_dir();
    let archive = dir.join(ARCHIVE);
    println!("cargo:rerun-if-changed={}", archive.display());
    if !archive.is_file() {
        eprintln!(
            "{} is missing: run `scripts/build pagzimul` in the project, or set {LIB_DIR} to where {ARCHIVE} lies",
            archive.display()
        );
        process::exit(1);
    }
    println!("cargo:rustc-link-search=native={}", dir.display());
    println!("cargo:rustc-link-lib=static=pagzimul");
}

fn lib_dir() -> PathBuf {
    match env::var_os(LIB_DIR) {
        Some(dir) => PathBuf::from(dir),
        None => {
            let manifest = env::var_os("CARGO_MANIFEST_DIR").unwrap_or_default();
            Path::new(&manifest).join(MADE_IN)
        }
    }
}
