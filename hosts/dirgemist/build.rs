//! Tells the linker where the proved libraries lie. `hosts/archive` makes them.

use std::env;
use std::path::PathBuf;

/// `speed` is no part of this crate: a benchmark links it, if it is there.
const LIBRARIES: [&str; 9] = [
    "cardlink",
    "keeping",
    "firmware",
    "forum",
    "gateway",
    "headlink",
    "mercurylink",
    "sessionlink",
    "speed",
];

fn main() {
    let here = PathBuf::from(env::var_os("CARGO_MANIFEST_DIR").expect("cargo sets it"));
    let given = env::var_os("DIRGEMIST_LIBS").unwrap_or_else(|| "../target/staticlib".into());
    let libraries = here.join("..").join(given);
    println!("cargo:rerun-if-env-changed=DIRGEMIST_LIBS");
    println!("cargo:rerun-if-changed=build.rs");
    println!("cargo:rustc-link-search=native={}", libraries.display());
    // A library that was built anew must be linked anew.
    for library in LIBRARIES {
        let file = libraries.join(format!("lib{library}.a"));
        if file.exists() {
            println!("cargo:rerun-if-changed={}", file.display());
        }
    }
}
