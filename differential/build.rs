//! Links the proved static library, which stands in `target/staticlib` beside
//! this package; a build with the feature `stand-in` does without it.

use std::env;

fn main() {
    if env::var_os("CARGO_FEATURE_STAND_IN").is_some() {
        return;
    }
    let package = env::var("CARGO_MANIFEST_DIR").expect("cargo sets the package's directory");
    let directory = format!("{package}/../target/staticlib");
    println!("cargo:rustc-link-search=native={directory}");
    println!("cargo:rustc-link-lib=static=analyser");
    println!("cargo:rerun-if-changed={directory}/libanalyser.a");
}
