//! Links libfutonkestrel.a from ../target/staticlib, or from the folder that
//! FUTONKESTREL_LIB names.

use std::env;
use std::path::{Path, PathBuf};

fn main() {
    let folder = env::var_os("FUTONKESTREL_LIB").map_or_else(built_here, PathBuf::from);
    let archive = folder.join("libfutonkestrel.a");
    println!("cargo:rerun-if-env-changed=FUTONKESTREL_LIB");
    println!("cargo:rerun-if-changed={}", archive.display());
    println!("cargo:rustc-link-search=native={}", folder.display());
    println!("cargo:rustc-link-lib=static=futonkestrel");
}

/// Where tools/library leaves the archive.
fn built_here() -> PathBuf {
    let package = env::var_os("CARGO_MANIFEST_DIR").expect("cargo names the package's folder");
    Path::new(&package).join("../target/staticlib")
}
