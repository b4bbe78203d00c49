//! Links the static library that `.ci/build` writes.
use std::path::PathBuf;

fn main() {
    let root = PathBuf::from(std::env::var("CARGO_MANIFEST_DIR").unwrap());
    let folder = root.join("../target/staticlib");
    println!("cargo:rustc-link-search=native={}", folder.display());
    println!("cargo:rustc-link-lib=static=capi");
    println!("cargo:rerun-if-changed={}", folder.join("libcapi.a").display());
}
