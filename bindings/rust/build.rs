//! Finds the static library: in the folder that MURGHIDOSSU_LIB names, or where `rt lib` writes it.

use std::env;

fn main() {
    let here = env::var("CARGO_MANIFEST_DIR").unwrap_or_default();
    let folder = env::var("MURGHIDOSSU_LIB").unwrap_or(format!("{here}/../../crates/ocean_c/out"));
    println!("cargo:rustc-link-search=native={folder}");
    println!("cargo:rustc-link-lib=static=ocean_c");
    println!("cargo:rerun-if-changed={folder}/libocean_c.a");
    println!("cargo:rerun-if-env-changed=MURGHIDOSSU_LIB");
}
