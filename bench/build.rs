//! With the feature `before`, links the two libraries that `bench/before` writes.
use std::path::PathBuf;

fn main() {
    if std::env::var_os("CARGO_FEATURE_BEFORE").is_none() {
        return;
    }
    let root = PathBuf::from(std::env::var("CARGO_MANIFEST_DIR").unwrap());
    let folder = root.join("../target/staticlib");
    println!("cargo:rustc-link-search=native={}", folder.display());
    for name in ["before", "after"] {
        println!("cargo:rustc-link-lib=static={name}");
        println!("cargo:rerun-if-changed={}", folder.join(format!("lib{name}.a")).display());
    }
}
