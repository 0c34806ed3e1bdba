//! Compiles the table loop.

use std::env;
use std::process::Command;

fn run(program: &str, arguments: &[&str]) {
    match Command::new(program).args(arguments).status() {
        Ok(status) if status.success() => (),
        Ok(status) => panic!("{program}: {status}"),
        Err(error) => panic!("{program}: {error}"),
    }
}

fn main() {
    let out = env::var("OUT_DIR").expect("cargo sets OUT_DIR");
    let here = env::var("CARGO_MANIFEST_DIR").expect("cargo sets CARGO_MANIFEST_DIR");
    let source = format!("{here}/src/table_loop.c");
    let object = format!("{out}/table_loop.o");
    run("gcc", &["-O3", "-Wall", "-c", &source, "-o", &object]);
    run("ar", &["rcs", &format!("{out}/libtable_loop.a"), &object]);

    println!("cargo:rustc-link-search=native={out}");
    println!("cargo:rustc-link-lib=static=table_loop");
    println!("cargo:rerun-if-changed={source}");
}
