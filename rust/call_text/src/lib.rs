//! Call lists as text (document 02, 2026-01), for tests of the port's program
//! `calls`: the calls (`calls`), their text and their sheet (`writer`), a reader
//! of the text that shares nothing with the program (`reader`), long files
//! (`files`), what the program has to print (`original`), and what it prints
//! (`program`).

pub mod calls;
pub mod files;
pub mod original;
pub mod program;
pub mod reader;
pub mod writer;

/// The most bytes that a file has.
pub const FILE: usize = 65_536;

/// The most bytes that an output has.
pub const OUTPUT: usize = 32_768;
