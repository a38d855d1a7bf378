//! Links the proved library, which `bin/library` makes: from the folder that
//! `TEPLONGA_LIB_DIR` names, or from where it is made in this repository.

use std::path::{Path, PathBuf};

fn main() {
    let package = std::env::var("CARGO_MANIFEST_DIR").expect("set by cargo");
    let named = std::env::var_os("TEPLONGA_LIB_DIR").map(PathBuf::from);
    let folder = named.unwrap_or_else(|| Path::new(&package).join("../target/lib"));
    let library = folder.join("libteplonga.a");
    if !library.exists() {
        let shown = library.display();
        println!("cargo:warning=no {shown}: run `bin/library`, or set TEPLONGA_LIB_DIR");
    }
    println!("cargo:rerun-if-changed=build.rs");
    println!("cargo:rerun-if-env-changed=TEPLONGA_LIB_DIR");
    println!("cargo:rerun-if-changed={}", library.display());
    println!("cargo:rustc-link-search=native={}", folder.display());
    println!("cargo:rustc-link-lib=static=teplonga");
}
