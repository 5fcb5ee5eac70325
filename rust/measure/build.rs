//! Compiles c/schwaemm.c, the plain C of the benchmark, with `cc -O3`, and
//! links it.

use std::env;
use std::path::PathBuf;
use std::process::{Command, exit};

const SOURCE: &str = "c/schwaemm.c";
const LIBRARY: &str = "c_schwaemm";

fn run(command: &mut Command) -> Result<(), String> {
    match command.status() {
        Ok(status) if status.success() => Ok(()),
        Ok(status) => Err(format!("{command:?}: {status}")),
        Err(error) => Err(format!("{command:?}: {error}")),
    }
}

fn build() -> Result<(), String> {
    println!("cargo:rerun-if-changed=build.rs");
    println!("cargo:rerun-if-changed={SOURCE}");
    let folder = env::var_os("OUT_DIR").ok_or("cargo names no folder")?;
    let folder = PathBuf::from(folder);
    let object = folder.join("schwaemm.o");
    let archive = folder.join(format!("lib{LIBRARY}.a"));
    run(Command::new("cc")
        .args(["-O3", "-fPIE", "-c", SOURCE, "-o"])
        .arg(&object))?;
    run(Command::new("ar").arg("crs").arg(&archive).arg(&object))?;
    println!("cargo:rustc-link-search=native={}", folder.display());
    println!("cargo:rustc-link-lib=static={LIBRARY}");
    Ok(())
}

fn main() {
    if let Err(message) = build() {
        eprintln!("cannot build the plain C: {message}");
        exit(1);
    }
}
