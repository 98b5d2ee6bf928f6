//! Links the static library that `tools/staticlib capi` writes.

use std::env::var;

fn main() {
    let here = var("CARGO_MANIFEST_DIR").expect("set by cargo");
    let folder = format!("{here}/../../target/staticlib");
    println!("cargo:rustc-link-search=native={folder}");
    println!("cargo:rustc-link-lib=static=capi");
    println!("cargo:rerun-if-changed={folder}/libcapi.a");
}
