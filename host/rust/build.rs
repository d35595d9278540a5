//! Links the archive that `rt lib` makes in crates/capi.

use std::path::Path;

fn main() {
    let folder = Path::new(env!("CARGO_MANIFEST_DIR")).join("../../crates/capi/out");
    let archive = folder.join("libcapi.a");
    println!("cargo:rerun-if-changed={}", archive.display());
    if !archive.exists() {
        eprintln!(
            "crates/capi/out/libcapi.a is missing: run `rt lib` in crates/capi first"
        );
        std::process::exit(1);
    }
    println!("cargo:rustc-link-search=native={}", folder.display());
    println!("cargo:rustc-link-lib=static=capi");
}
