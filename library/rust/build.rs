//! Links the archive `libplacelist.a`: from the folder that `PLACELIST_LIB_DIR` names, or else from
//! `target/library/lib` of the repository.

use std::env;
use std::path::{Path, PathBuf};
use std::process::exit;

fn main() {
    println!("cargo:rerun-if-env-changed=PLACELIST_LIB_DIR");
    println!("cargo:rerun-if-changed=build.rs");
    let folder = folder();
    let archive = folder.join("libplacelist.a");
    println!("cargo:rerun-if-changed={}", archive.display());
    if !archive.is_file() {
        eprintln!("error: there is no archive {}", archive.display());
        eprintln!("Run `library/install` in the repository: it proves the library and writes");
        eprintln!(
            "target/library. Or set PLACELIST_LIB_DIR to the folder that has libplacelist.a,"
        );
        eprintln!("as an absolute path.");
        exit(1);
    }
    println!("cargo:rustc-link-search=native={}", folder.display());
    println!("cargo:rustc-link-lib=static=placelist");
}

/// Where the archive is looked for.
fn folder() -> PathBuf {
    match env::var_os("PLACELIST_LIB_DIR") {
        Some(folder) if !folder.is_empty() => PathBuf::from(folder),
        _ => Path::new(env!("CARGO_MANIFEST_DIR")).join("../../target/library/lib"),
    }
}
