//! Finds the static library that `bin/build library` writes.

use std::env;
use std::path::{Path, PathBuf};

fn main() {
    println!("cargo::rerun-if-env-changed=FASTHROM_LIB");
    let folder = match env::var_os("FASTHROM_LIB") {
        Some(folder) => PathBuf::from(folder),
        None => Path::new(env!("CARGO_MANIFEST_DIR")).join("../../target/staticlib"),
    };
    let library = folder.join("libfasthrom.a");
    println!("cargo::rerun-if-changed={}", library.display());
    if !library.is_file() {
        println!(
            "cargo::error={} is missing: run `bin/build library` at the top of the repository, \
             or set FASTHROM_LIB to the folder that holds libfasthrom.a",
            library.display()
        );
        return;
    }
    println!("cargo::rustc-link-search=native={}", folder.display());
    println!("cargo::rustc-link-lib=static=fasthrom");
}
