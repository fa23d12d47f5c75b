//! Links the static library that `host/build-library` makes.

use std::env;
use std::path::PathBuf;

fn main() {
    let manifest = PathBuf::from(env::var_os("CARGO_MANIFEST_DIR").expect("set by cargo"));
    let directory = manifest.join("../../target/staticlib");
    let library = directory.join("librc4000.a");
    if !library.exists() {
        println!("cargo:warning=no target/staticlib/librc4000.a: run host/build-library first");
    }
    println!("cargo:rerun-if-changed={}", library.display());
    println!("cargo:rustc-link-search=native={}", directory.display());
    println!("cargo:rustc-link-lib=static=rc4000");
}
