//! Copies the hdf5-pure sources into the build folder, where HDF5_PURE names their folder.

use std::path::{Path, PathBuf};
use std::{env, fs};

/// The modules taken over, each with the file of the child module that its copy gets.
const MODULES: [(&str, Option<&str>); 6] = [
    ("btree_v2", Some("reach_reader.rs")),
    ("btree_v2_write", Some("reach_writer.rs")),
    ("bytes", None),
    ("checksum", None),
    ("convert", None),
    ("error", None),
];

fn main() {
    println!("cargo::rerun-if-changed=build.rs");
    println!("cargo::rerun-if-env-changed=HDF5_PURE");
    println!("cargo::rustc-check-cfg=cfg(hdf5_pure)");
    let named = env::var_os("HDF5_PURE").unwrap_or_default();
    if named.is_empty() {
        return;
    }
    println!("cargo::rustc-cfg=hdf5_pure");

    let package = folder("CARGO_MANIFEST_DIR");
    let out = folder("OUT_DIR");
    // A relative name is taken from the repository's root.
    let sources = package.join("../..").join(named).join("src");
    let mut root = String::new();
    for (name, child) in MODULES {
        let copy = out.join(format!("{name}.rs"));
        let mut text = read(&sources.join(format!("{name}.rs")));
        if let Some(file) = child {
            text.push_str(&module("reach", &package.join("src").join(file)));
        }
        write(&copy, &text);
        root.push_str(&module(name, &copy));
    }
    write(&out.join("modules.rs"), &root);
}

/// The folder that cargo names in the variable `name`.
fn folder(name: &str) -> PathBuf {
    PathBuf::from(env::var_os(name).expect("cargo sets it"))
}

/// The declaration of a module that stands in `file`.
fn module(name: &str, file: &Path) -> String {
    format!("#[allow(dead_code)]\n#[path = {file:?}]\npub(crate) mod {name};\n")
}

/// The text of `file`, which is read again when it changes.
fn read(file: &Path) -> String {
    println!("cargo::rerun-if-changed={}", file.display());
    fs::read_to_string(file)
        .unwrap_or_else(|e| panic!("HDF5_PURE: cannot read {}: {e}", file.display()))
}

fn write(file: &Path, text: &str) {
    fs::write(file, text).unwrap_or_else(|e| panic!("cannot write {}: {e}", file.display()));
}
