//! Links the port's archives `libhost.a`, `libpacket.a` and `libopen_whole.a`,
//! which are looked for in the repository's target/staticlib, or in the folder
//! that `HOST_DIR` names.

use std::path::Path;
use std::process::exit;

#[path = "../archive.rs"]
mod archive;

fn main() {
    let repository = Path::new(env!("CARGO_MANIFEST_DIR")).join("../..");
    for name in ["host", "packet", "open_whole"] {
        if let Err(message) = archive::link(name, "HOST_DIR", &repository) {
            eprintln!("cannot link the port: {message}");
            exit(1);
        }
    }
}
