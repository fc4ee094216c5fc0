//! Links the static library that `bin/build library` writes.

use std::path::Path;

fn main() {
    let folder = Path::new(env!("CARGO_MANIFEST_DIR")).join("../target/staticlib");
    let library = folder.join("libfasthrom.a");
    assert!(library.is_file(), "{} is missing: run bin/build library", library.display());
    println!("cargo:rerun-if-changed={}", library.display());
    println!("cargo:rustc-link-search=native={}", folder.display());
    println!("cargo:rustc-link-lib=static=fasthrom");
}
