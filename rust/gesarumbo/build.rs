//! Links the proved library's static archive.

use std::env;
use std::path::{Path, PathBuf};
use std::process::exit;

const FOLDER: &str = "GESARUMBO_LIB_DIR";

fn main() {
    let folder = folder();
    let archive = folder.join("libgesarumbo.a");
    println!("cargo:rerun-if-env-changed={FOLDER}");
    println!("cargo:rerun-if-changed=build.rs");
    println!("cargo:rerun-if-changed={}", archive.display());
    if !archive.is_file() {
        eprintln!(
            "There is no libgesarumbo.a in {}.\n\
             Run tools/archive in the repository to prove the library and write it,\n\
             or name the folder that has it in the environment variable {FOLDER}.",
            folder.display()
        );
        exit(1);
    }
    println!("cargo:rustc-link-search=native={}", folder.display());
    println!("cargo:rustc-link-lib=static=gesarumbo");
}

/// The folder named in the environment; else, seen from the root of the repository or of an archive
/// that it makes, target/staticlib or lib, the first if neither has the library.
fn folder() -> PathBuf {
    if let Some(named) = env::var_os(FOLDER) {
        return PathBuf::from(named);
    }
    let manifest = env::var_os("CARGO_MANIFEST_DIR").unwrap_or_default();
    let root = Path::new(&manifest).join("../..");
    let archived = root.join("lib");
    if archived.join("libgesarumbo.a").is_file() {
        return archived;
    }
    root.join("target/staticlib")
}
