//! Links the static library that `tests/build archive` writes, which is for x86-64 alone.

use std::{env, path::PathBuf};

fn main() {
    if env::var("CARGO_CFG_TARGET_ARCH").unwrap() != "x86_64" {
        println!("cargo::rerun-if-changed=build.rs");
        return;
    }
    let manifest = PathBuf::from(env::var_os("CARGO_MANIFEST_DIR").unwrap());
    let root = manifest.ancestors().nth(2).unwrap();
    let folder = root.join("target/staticlib");
    let archive = folder.join("libbisquefern.a");
    println!("cargo::rerun-if-changed={}", archive.display());
    if !archive.exists() {
        println!(
            "cargo::error=target/staticlib/libbisquefern.a is missing: run tests/build archive first"
        );
    }
    println!("cargo::rustc-link-search=native={}", folder.display());
    println!("cargo::rustc-link-lib=static=bisquefern");
}
