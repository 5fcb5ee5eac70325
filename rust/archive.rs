// Names an archive of the port to the linker. The build scripts of `host` and
// `bench` share it: `tools/archives NAME` writes the archive to the repository's
// target/staticlib, and an environment variable may name another folder by its
// absolute path.

use std::env;
use std::path::{Path, PathBuf};

/// Links lib`name`.a of the folder that the environment's `variable` names,
/// or of target/staticlib in the `repository`.
pub fn link(name: &str, variable: &str, repository: &Path) -> Result<(), String> {
    println!("cargo:rerun-if-env-changed={variable}");
    let folder =
        env::var_os(variable).map_or_else(|| repository.join("target/staticlib"), PathBuf::from);
    let archive = folder.join(format!("lib{name}.a"));
    println!("cargo:rerun-if-changed={}", archive.display());
    if !archive.is_file() {
        return Err(format!(
            "the archive {} is not there; `tools/archives {name}` writes it, and {variable} names another folder",
            archive.display()
        ));
    }
    println!("cargo:rustc-link-search=native={}", folder.display());
    println!("cargo:rustc-link-lib=static={name}");
    Ok(())
}
