//! Call lists on the Rust's engine, with what it answered: the calls
//! (`calls`), the engine that answers them and is followed by document 01
//! (`recorder`), lists and answers in bytes (`boundary`), what lists hold
//! (`counts`), lists of many kinds (`scenes`), the known answers (`kat`), and the
//! file that the port's program `replay` reads (`file`).

pub mod boundary;
pub mod calls;
pub mod counts;
pub mod file;
pub mod kat;
pub mod random;
pub mod recorder;
pub mod scenes;
