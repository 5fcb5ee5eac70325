//! Cuts the scalar permutation out of engine.rs for the module `scalar`, and
//! stops the build where an item of it is not found.

use std::env;
use std::path::Path;
use std::process::exit;

mod cut;

fn main() {
    let engine = Path::new(env!("CARGO_MANIFEST_DIR"))
        .join("../../../docs/src/tc_sparkle_aead/src/engine.rs");
    println!("cargo:rerun-if-changed={}", engine.display());
    let out = env::var_os("OUT_DIR").expect("cargo sets OUT_DIR");
    if let Err(message) = cut::write_scalar(&engine, Path::new(&out)) {
        eprintln!("cannot cut the scalar permutation: {message}");
        exit(1);
    }
}
