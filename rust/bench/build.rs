//! Links the port's archive `libsparkle_bench.a` and cuts the scalar
//! permutation out of engine.rs for the copies of known size. The archive is
//! looked for in the repository's target/staticlib, or in the folder that
//! `SPARKLE_BENCH_DIR` names.

use std::env;
use std::path::{Path, PathBuf};
use std::process::exit;

#[path = "../archive.rs"]
mod archive;
#[path = "../oracle/tc_sparkle_aead/cut.rs"]
mod cut;

fn main() {
    let link = || archive::link("sparkle_bench", "SPARKLE_BENCH_DIR", &repository());
    if let Err(message) = scalar().and_then(|()| link()) {
        eprintln!("cannot build the benchmark: {message}");
        exit(1);
    }
}

/// Writes the text of the scalar permutation to the build's output folder.
fn scalar() -> Result<(), String> {
    let engine = repository().join("docs/src/tc_sparkle_aead/src/engine.rs");
    println!("cargo:rerun-if-changed={}", engine.display());
    let out = env::var_os("OUT_DIR").expect("cargo sets OUT_DIR");
    cut::write_scalar(&engine, Path::new(&out))
}

/// The repository's root.
fn repository() -> PathBuf {
    Path::new(env!("CARGO_MANIFEST_DIR")).join("../..")
}
