//! Links the static library `avsplus`, from AVSPLUS_LIB_DIR or from the repository's own build.

use std::env;
use std::path::PathBuf;
use std::process;

/// The folder to link from: the one named in the environment, else where the repository's build leaves the archive.
fn library_folder() -> PathBuf {
    match env::var_os("AVSPLUS_LIB_DIR") {
        Some(folder) => PathBuf::from(folder),
        None => PathBuf::from(env::var_os("CARGO_MANIFEST_DIR").unwrap_or_default()).join("../../target/staticlib"),
    }
}

fn main() {
    let folder = library_folder();
    if folder.is_relative() {
        eprintln!("AVSPLUS_LIB_DIR is not a whole path: {}", folder.display());
        process::exit(1);
    }
    let archive = folder.join("libavsplus.a");
    println!("cargo:rerun-if-env-changed=AVSPLUS_LIB_DIR");
    println!("cargo:rerun-if-changed={}", archive.display());
    if !archive.is_file() {
        eprintln!(
            "there is no {}: run `make library` first, or name its folder in AVSPLUS_LIB_DIR",
            archive.display()
        );
        process::exit(1);
    }
    println!("cargo:rustc-link-search=native={}", folder.display());
    println!("cargo:rustc-link-lib=static=avsplus");
}
