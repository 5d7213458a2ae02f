//! Links the proved library: `libnektawul.a` in `NEKTAWUL_LIB_DIR`, or in the repository's `target/staticlib`.
use std::{env, path::PathBuf};

fn folder() -> PathBuf {
    match env::var_os("NEKTAWUL_LIB_DIR") {
        Some(folder) => PathBuf::from(folder),
        None => PathBuf::from(env::var_os("CARGO_MANIFEST_DIR").expect("cargo sets it")).join("../../target/staticlib"),
    }
}

fn main() {
    let folder = folder();
    let archive = folder.join("libnektawul.a");
    println!("cargo::rerun-if-env-changed=NEKTAWUL_LIB_DIR");
    println!("cargo::rerun-if-changed={}", archive.display());
    if !archive.is_file() {
        println!(
            "cargo::error={} is missing: `bash bindings/build.sh` makes it, or name its folder in NEKTAWUL_LIB_DIR",
            archive.display()
        );
    }
    println!("cargo::rustc-link-search=native={}", folder.display());
    println!("cargo::rustc-link-lib=static=nektawul");
}
