//! Writes a variant's known-answer file, made again from the Rust original
//! (kat/README.md), to standard output:
//!
//!     cargo run --release -p replay --bin known_answers -- VARIANT
//!
//! VARIANT is document 01's number, 1 to 4.

use std::process::ExitCode;

use replay::calls::{VARIANTS, variant_number};
use replay::kat;

fn main() -> ExitCode {
    let number = std::env::args().nth(1).and_then(|n| n.parse().ok());
    let Some(variant) = VARIANTS
        .into_iter()
        .find(|v| Some(variant_number(*v)) == number)
    else {
        eprintln!("usage: known_answers VARIANT, a number 1 to 4");
        return ExitCode::from(2);
    };
    print!("{}", kat::make(variant));
    ExitCode::SUCCESS
}
