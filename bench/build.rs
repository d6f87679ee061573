//! Links the project's static library, `target/staticlib/libcapi.a` of the repository.

use std::path::Path;
use std::{env, process};

fn main() {
    if env::var_os("CARGO_FEATURE_LINKED").is_none() {
        return;
    }
    let bench = env::var("CARGO_MANIFEST_DIR").expect("cargo sets CARGO_MANIFEST_DIR");
    let repository = Path::new(&bench).parent().expect("bench stands in the repository");
    let folder = repository.join("target").join("staticlib");
    let archive = folder.join("libcapi.a");
    println!("cargo:rerun-if-changed={}", archive.display());
    if !archive.is_file() {
        eprintln!("{} is missing: run `tools/staticlib` in the repository first", archive.display());
        process::exit(1);
    }
    println!("cargo:rustc-link-search=native={}", folder.display());
    println!("cargo:rustc-link-lib=static=capi");
    println!("cargo:rustc-link-lib=c");
}
