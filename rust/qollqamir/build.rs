//! Links `target/staticlib/libqollqamir.a`, which `tools/build archive` makes at the top of the repository.

use std::path::Path;

fn main() {
    let here = std::env::var("CARGO_MANIFEST_DIR").expect("cargo sets CARGO_MANIFEST_DIR");
    let folder = Path::new(&here).join("../../target/staticlib");
    let archive = folder.join("libqollqamir.a");
    println!("cargo:rerun-if-changed={}", archive.display());
    println!("cargo:rerun-if-changed=build.rs");
    if !archive.is_file() {
        eprintln!("target/staticlib/libqollqamir.a is missing: run `tools/build archive` at the top of the repository");
        std::process::exit(1);
    }
    println!("cargo:rustc-link-search=native={}", folder.display());
    println!("cargo:rustc-link-lib=static=qollqamir");
}
