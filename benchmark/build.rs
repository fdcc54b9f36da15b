//! Links the proved library, which `rt staticlib analyser` writes.

fn main() {
    let root = std::env::var("CARGO_MANIFEST_DIR").expect("cargo sets it");
    println!("cargo:rustc-link-search=native={root}/../target/staticlib");
    println!("cargo:rustc-link-lib=static=analyser");
    println!("cargo:rerun-if-changed={root}/../target/staticlib/libanalyser.a");
}
