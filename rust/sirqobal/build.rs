//! Links libsirqobal.a, by default the one that library.sh leaves in the repository's build/lib;
//! SIRQOBAL_LIB_DIR names another folder.

use std::env;
use std::path::PathBuf;

fn main() {
    println!("cargo::rerun-if-env-changed=SIRQOBAL_LIB_DIR");
    let folder = match env::var_os("SIRQOBAL_LIB_DIR") {
        Some(folder) => PathBuf::from(folder),
        None => PathBuf::from(env::var_os("CARGO_MANIFEST_DIR").expect("cargo sets it"))
            .join("../../build/lib"),
    };
    let library = folder.join("libsirqobal.a");
    println!("cargo::rerun-if-changed={}", library.display());
    if !library.is_file() {
        println!(
            "cargo::error={} is missing: run `bash library.sh` in the repository's root, \
             or name its folder, by an absolute path, in SIRQOBAL_LIB_DIR",
            library.display()
        );
        return;
    }
    println!("cargo::rustc-link-search=native={}", folder.display());
    println!("cargo::rustc-link-lib=static=sirqobal");
}
