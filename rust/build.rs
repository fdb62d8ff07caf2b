//! Tells the linker where the proved library is: crates/puzhenim/out of the repository, or the folder that PUZHENIM_LIB names.

use std::env;
use std::path::{Path, PathBuf};

fn folder() -> PathBuf {
    match env::var_os("PUZHENIM_LIB") {
        Some(named) => PathBuf::from(named),
        None => Path::new(env!("CARGO_MANIFEST_DIR")).join("../crates/puzhenim/out"),
    }
}

fn main() {
    let folder = folder();
    let archive = folder.join("libpuzhenim.a");
    println!("cargo:rerun-if-env-changed=PUZHENIM_LIB");
    println!("cargo:rerun-if-changed={}", archive.display());
    if !archive.exists() {
        panic!("there is no {}: make it by `rt lib` in crates/puzhenim, or name its folder in PUZHENIM_LIB", archive.display());
    }
    println!("cargo:rustc-link-search=native={}", folder.display());
    println!("cargo:rustc-link-lib=static=puzhenim");
}
