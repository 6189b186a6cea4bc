//! Links the library for `compare` and `bench` (feature `library`) from the folder ZILMORGA_LIB names.

use std::env::var;
use std::path::Path;

fn main() {
    println!("cargo:rerun-if-changed=build.rs");
    println!("cargo:rerun-if-env-changed=ZILMORGA_LIB");
    if var("CARGO_FEATURE_LIBRARY").is_err() {
        return;
    }
    // A relative folder is taken from the package's own.
    let package = var("CARGO_MANIFEST_DIR").unwrap_or_default();
    let folder = Path::new(&package).join(var("ZILMORGA_LIB").unwrap_or("../crates/zilmorga/out".to_string()));
    println!("cargo:rerun-if-changed={}", folder.join("libzilmorga.a").display());
    println!("cargo:rustc-link-search=native={}", folder.display());
    // A library that carries Rust's own std in one object brings some of its symbols a second time.
    println!("cargo:rustc-link-arg-bins=-Wl,--allow-multiple-definition");
}
