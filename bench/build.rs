//! Links the proved library where the feature `library` asks for it.

fn main() {
    println!("cargo:rerun-if-changed=build.rs");
    if std::env::var_os("CARGO_FEATURE_LIBRARY").is_none() {
        return;
    }
    let bench = std::env::var("CARGO_MANIFEST_DIR").expect("set by cargo");
    let folder = format!("{bench}/../target/lib");
    println!("cargo:rustc-link-search=native={folder}");
    println!("cargo:rerun-if-changed={folder}/libteplonga.a");
    println!("cargo:rustc-link-lib=static=teplonga");
}
