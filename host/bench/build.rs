//! Links the library's face for C.

use std::path::Path;

fn main() {
    let folder = Path::new(env!("CARGO_MANIFEST_DIR")).join("../../crates/capi/out");
    let library = folder.join("libcapi.a");
    println!("cargo:rerun-if-changed={}", library.display());
    if !library.exists() {
        eprintln!(
            "crates/capi/out/libcapi.a is missing: make it with `rt lib` in crates/capi, then build the bench again."
        );
        std::process::exit(1);
    }
    println!("cargo:rustc-link-search=native={}", folder.display());
    println!("cargo:rustc-link-lib=static=capi");
}
