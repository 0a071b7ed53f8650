//! Links the static libraries that `scripts/prove archives` wrote to target/staticlib.

use std::env;
use std::path::Path;

/// The crates whose archives are linked. The checksum's comes last: if one before it holds the
/// checksum too, the last one adds no second one.
const ARCHIVES: [&str; 2] = ["btree_v2", "checksum"];

fn main() {
    println!("cargo::rerun-if-changed=build.rs");
    let package = env::var_os("CARGO_MANIFEST_DIR").expect("cargo sets it");
    let root = Path::new(&package).join("../..");
    let root = root.canonicalize().unwrap_or(root);
    let folder = root.join("target/staticlib");
    println!("cargo::rustc-link-search=native={}", folder.display());
    for name in ARCHIVES {
        let archive = folder.join(format!("lib{name}.a"));
        println!("cargo::rerun-if-changed={}", archive.display());
        if !archive.is_file() {
            let missing = archive.display();
            let root = root.display();
            println!("cargo::error={missing} is missing: run `scripts/prove archives` in {root}");
        }
        println!("cargo::rustc-link-lib=static={name}");
    }
}
