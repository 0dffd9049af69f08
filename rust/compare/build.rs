//! Compiles c/reference.c, with which the benchmark times the layer's calls in plain C.

use std::env;
use std::path::PathBuf;
use std::process::Command;

fn main() {
    let root = PathBuf::from(variable("CARGO_MANIFEST_DIR")).join("../..");
    let (source, include) = (root.join("c/reference.c"), root.join("include"));
    let out = PathBuf::from(variable("OUT_DIR"));
    let object = out.join("reference.o");
    println!("cargo::rerun-if-changed={}", source.display());
    println!("cargo::rerun-if-changed={}", include.display());

    let mut gcc = Command::new("gcc");
    gcc.args(["-std=c11", "-O2", "-fPIC", "-Wall", "-Wextra", "-Werror"]);
    // Where the linker puts its short loops would change some times by a third.
    gcc.arg("-falign-loops=32");
    // The ABI gives every call the same first parameters: some use only a few of them.
    gcc.arg("-Wno-unused-parameter").arg("-I").arg(include);
    gcc.arg("-c").arg(source).arg("-o").arg(&object);
    run(&mut gcc);
    let library = out.join("libreference.a");
    run(Command::new("ar").arg("crs").arg(library).arg(object));
    println!("cargo::rustc-link-search=native={}", out.display());
    println!("cargo::rustc-link-lib=static=reference");
}

fn run(command: &mut Command) {
    match command.status() {
        Ok(status) if status.success() => {}
        other => panic!("{command:?}: {other:?}"),
    }
}

fn variable(name: &str) -> String {
    env::var(name).unwrap_or_else(|e| panic!("{name}: {e}"))
}
