//! Links the archive that `rt lib` writes in crates/gingerstall.
use std::{env, path::PathBuf};

fn main() {
    let root = PathBuf::from(env::var("CARGO_MANIFEST_DIR").expect("cargo sets it")).join("../..");
    let folder = root.join("crates/gingerstall/out");
    let archive = folder.join("libgingerstall.a");
    assert!(archive.exists(), "{} isn't there: rt lib writes it, in crates/gingerstall", archive.display());
    println!("cargo:rerun-if-changed={}", archive.display());
    println!("cargo:rustc-link-search=native={}", folder.display());
    println!("cargo:rustc-link-lib=static=gingerstall");
}
