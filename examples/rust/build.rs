//! Links the static library that `tools/library` writes, or the one in the folder that LUMAS_LIB names.

use std::path::Path;

fn main() {
    let here = std::env::var("CARGO_MANIFEST_DIR").expect("cargo sets it");
    let named = std::env::var("LUMAS_LIB").unwrap_or_else(|_| "../../crates/lumas/out".into());
    let folder = Path::new(&here).join(named);
    let archive = folder.join("liblumas.a");
    assert!(
        archive.exists(),
        "no {}: run `tools/library` first",
        archive.display()
    );
    println!("cargo:rerun-if-env-changed=LUMAS_LIB");
    println!("cargo:rerun-if-changed={}", archive.display());
    println!("cargo:rustc-link-search=native={}", folder.display());
    println!("cargo:rustc-link-lib=static=lumas");
}
