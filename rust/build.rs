//! Says where the library is, and that the crate is to be linked again where the library has changed.

use std::env::var;

fn main() {
    let here = var("CARGO_MANIFEST_DIR").expect("cargo says where the crate is");
    let folder = var("SPELUNZONE_LIBRARY").unwrap_or(format!("{here}/../target/staticlib"));
    println!("cargo::rerun-if-env-changed=SPELUNZONE_LIBRARY");
    println!("cargo::rerun-if-changed={folder}/libspelunzone.a");
    println!("cargo::rustc-link-search=native={folder}");
}
