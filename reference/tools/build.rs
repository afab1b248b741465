//! Links the verified library if it was built, and then sets the cfg `verified`.
//! Where it is built for the first time, `touch tools/build.rs` lets this run again.

use std::path::Path;

fn main() {
    println!("cargo::rustc-check-cfg=cfg(verified)");
    println!("cargo::rerun-if-changed=build.rs");
    let package = std::env::var("CARGO_MANIFEST_DIR").expect("cargo names the package's folder");
    let folder = Path::new(&package).join("../../crates/exports/out");
    let library = folder.join("libexports.a");
    if library.exists() {
        println!("cargo::rerun-if-changed={}", library.display());
        println!("cargo::rustc-link-search=native={}", folder.display());
        println!("cargo::rustc-link-lib=static=exports");
        println!("cargo::rustc-cfg=verified");
    }
}
