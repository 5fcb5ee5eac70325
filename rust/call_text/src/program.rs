//! The program `calls` of the port, which `rt run` in crates/calls and `rt ci`
//! write to that crate's folder out.

use std::io::{ErrorKind, Write};
use std::path::{Path, PathBuf};
use std::process::{Command, Stdio};
use std::thread;

/// Where the program is.
///
/// # Panics
///
/// Where it is missing.
pub fn path() -> PathBuf {
    let path = Path::new(env!("CARGO_MANIFEST_DIR")).join("../../crates/calls/out/calls");
    assert!(
        path.is_file(),
        "the program {} is not there; `rt run` in crates/calls writes it",
        path.display()
    );
    path
}

/// What a command prints that gets `pieces` on its standard input, each by a
/// write of its own. A program may leave the end of its input unread.
///
/// # Panics
///
/// Where the command cannot be run, ends with another status than 0, writes to
/// standard error or prints something else than text.
pub fn printed_by<'a>(
    command: &mut Command,
    pieces: impl Iterator<Item = &'a [u8]> + Send,
) -> String {
    let mut child = command
        .stdin(Stdio::piped())
        .stdout(Stdio::piped())
        .stderr(Stdio::piped())
        .spawn()
        .expect("the program starts");
    let mut stdin = child.stdin.take().expect("a pipe");
    let output = thread::scope(|scope| {
        scope.spawn(move || {
            for piece in pieces {
                match stdin.write_all(piece) {
                    Err(e) if e.kind() == ErrorKind::BrokenPipe => return,
                    written => written.expect("the program's input is written"),
                }
            }
        });
        child.wait_with_output().expect("the program ends")
    });
    assert_eq!(output.status.code(), Some(0), "{:?}", output.status);
    assert_eq!(output.stderr, b"");
    String::from_utf8(output.stdout).expect("text")
}

/// What the program prints for a file.
pub fn printed(file: &[u8]) -> String {
    printed_by(&mut Command::new(path()), std::iter::once(file))
}
