//! Tells the linker where `libpupcopper.a` is. Only the test `drawn_cases` links it.

use std::env;
use std::path::PathBuf;

fn main() {
    let manifest = env::var_os("CARGO_MANIFEST_DIR").map(PathBuf::from);
    let beside = || manifest.unwrap_or_default().join("../crates/pupcopper/out");
    let folder = env::var_os("PUPCOPPER_LIB").map_or_else(beside, PathBuf::from);
    println!("cargo:rustc-link-search=native={}", folder.display());
    println!("cargo:rerun-if-env-changed=PUPCOPPER_LIB");
    println!("cargo:rerun-if-changed=build.rs");
    let archive = folder.join("libpupcopper.a");
    println!("cargo:rerun-if-changed={}", archive.display());
}
