//! Finds `liblaksubinat.a`: in the folder LAKSUBINAT_LIB_DIR, else where `tests/archive` writes it.

use std::env;
use std::path::{Path, PathBuf};

fn main() {
    let folder = match env::var_os("LAKSUBINAT_LIB_DIR") {
        Some(named) => PathBuf::from(named),
        None => Path::new(&env::var_os("CARGO_MANIFEST_DIR").expect("cargo sets it")).join("../../target/staticlib"),
    };
    let archive = folder.join("liblaksubinat.a");
    println!("cargo:rerun-if-env-changed=LAKSUBINAT_LIB_DIR");
    println!("cargo:rerun-if-changed={}", archive.display());
    assert!(
        archive.exists(),
        "{} is not there: run `tests/archive`, or set LAKSUBINAT_LIB_DIR",
        archive.display()
    );
    println!("cargo:rustc-link-search=native={}", folder.display());
    println!("cargo:rustc-link-lib=static=laksubinat");
}
