//! Changes one line of the published wfc.rs, and finds the static libraries of Murghidossu.

use std::{env, fs, path::Path};

const PUBLISHED: &str = "../docs/src/wfc.rs";

// The draw: Murghidossu takes the lent word modulo the weight sum, and so must the Rust here.
const OLD: &str = "        let mut remaining = rng.gen_range(0..self.stats.sum_compatible_pattern_weight);\n";
const NEW: &str = "        let mut remaining = rng.next_u32() % self.stats.sum_compatible_pattern_weight;\n";

fn main() {
    let published = fs::read_to_string(PUBLISHED).expect("docs/src/wfc.rs");
    assert_eq!(published.matches(OLD).count(), 1, "the line to change stands once");
    let out = env::var("OUT_DIR").expect("a folder to write to");
    fs::write(Path::new(&out).join("wfc.rs"), published.replace(OLD, NEW)).expect("room");
    println!("cargo:rerun-if-changed={}", PUBLISHED);

    let root = env::var("CARGO_MANIFEST_DIR").expect("this folder");
    // oracle/compare puts both of them into one folder, and bench/run has them elsewhere
    println!("cargo:rerun-if-env-changed=MURGHIDOSSU_ARCHIVES");
    let archives = env::var("MURGHIDOSSU_ARCHIVES").unwrap_or(format!("{}/../target/staticlib", root));
    println!("cargo:rustc-link-search=native={}", archives);
    let traced = env::var("CARGO_FEATURE_TRACE").is_ok();
    let names: &[&str] = if traced { &["ocean_c", "trace_c"] } else { &["ocean_c"] };
    for name in names {
        println!("cargo:rustc-link-lib=static={}", name);
        println!("cargo:rerun-if-changed={}/lib{}.a", archives, name);
    }
}
