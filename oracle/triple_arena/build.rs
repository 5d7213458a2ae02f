//! Finds the unchanged files of triple_arena 0.15.1 and writes the `mod` lines that name them. They are read where they stand, not copied:
//! in the folder that the variable TRIPLE_ARENA_SRC names, else in `../shared/docs/src/src` beside the repository.
use std::{
    env, fs,
    path::{Path, PathBuf},
};

/// Module of this crate, and the files that it is made of.
const FILES: [(&str, &[&str]); 3] = [
    ("fundamental", &["advancer", "errors", "extra", "ptr"]),
    ("stack", &["arena_backing", "nonzero_inx_generic_stack"]),
    ("arena", &["arena_iterators", "arena_traits", "base_arena", "impl_arena_trait"]),
];

fn source() -> PathBuf {
    println!("cargo::rerun-if-env-changed=TRIPLE_ARENA_SRC");
    match env::var_os("TRIPLE_ARENA_SRC") {
        Some(path) => PathBuf::from(path),
        None => Path::new(env!("CARGO_MANIFEST_DIR")).join("../../../shared/docs/src/src"),
    }
}

fn main() {
    let source = source();
    let out = PathBuf::from(env::var_os("OUT_DIR").expect("cargo sets OUT_DIR"));
    for (module, files) in FILES {
        let mut lines = String::new();
        for file in files {
            let path = source.join(module).join(format!("{file}.rs"));
            let path = path.canonicalize().unwrap_or_else(|e| panic!("{}: {e} (set TRIPLE_ARENA_SRC)", path.display()));
            println!("cargo::rerun-if-changed={}", path.display());
            lines += &format!("#[path = {path:?}]\npub mod {file};\n");
        }
        fs::write(out.join(format!("{module}.rs")), lines).expect("OUT_DIR can be written");
    }
}
