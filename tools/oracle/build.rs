//! Links the static library of the proved functions, for the feature `bench` only.

use std::env;
use std::path::PathBuf;

fn main() {
    println!("cargo::rerun-if-changed=build.rs");
    println!("cargo::rerun-if-env-changed=LUMAS_LIB");
    if env::var_os("CARGO_FEATURE_BENCH").is_none() {
        return;
    }
    let manifest = PathBuf::from(env::var_os("CARGO_MANIFEST_DIR").expect("cargo sets it"));
    let named = env::var_os("LUMAS_LIB").map(PathBuf::from);
    let folder = manifest.join(named.unwrap_or_else(|| PathBuf::from("../../crates/lumas/out")));
    let library = folder.join("liblumas.a");
    println!("cargo::rerun-if-changed={}", library.display());
    if !library.exists() {
        println!("cargo::error=no liblumas.a in LUMAS_LIB or crates/lumas/out; `tools/library` makes it");
        return;
    }
    println!("cargo::rustc-link-search=native={}", folder.display());
    println!("cargo::rustc-link-lib=static=lumas");
}
