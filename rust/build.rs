//! Links the static library that `./build-library` makes.

use std::path::Path;

fn main() {
    let manifest = std::env::var_os("CARGO_MANIFEST_DIR").expect("cargo sets it");
    let libraries = Path::new(&manifest).join("../dist/lib");
    let archive = libraries.join("libcapstan.a");
    println!("cargo::rerun-if-changed={}", archive.display());
    if !archive.is_file() {
        println!("cargo::error=dist/lib/libcapstan.a is missing: run ./build-library");
        return;
    }
    println!("cargo::rustc-link-search=native={}", libraries.display());
    println!("cargo::rustc-link-lib=static=capstan");
}
