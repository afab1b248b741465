//! Links the verified library, which has to be built first.

use std::path::Path;

fn main() {
    let package = std::env::var("CARGO_MANIFEST_DIR").expect("cargo names the package's folder");
    let folder = Path::new(&package).join("../../crates/exports/out");
    let library = folder.join("libexports.a");
    println!("cargo::rerun-if-changed={}", library.display());
    if library.exists() {
        println!("cargo::rustc-link-search=native={}", folder.display());
        println!("cargo::rustc-link-lib=static=exports");
    } else {
        println!("cargo::error=no crates/exports/out/libexports.a: run `rt lib` in crates/exports first");
    }
}
