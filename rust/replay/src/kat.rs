//! The known-answer files of the folder kat: read, and made again from the Rust
//! original.

use std::fmt::Write;
use std::path::Path;

use tc_sparkle_aead::SparkleVariant;

use crate::calls::{Start, sealed};

/// One entry: what is sealed under which key and nonce, and what it becomes.
pub struct Entry {
    pub count: usize,
    pub key: Vec<u8>,
    pub nonce: Vec<u8>,
    pub message: Vec<u8>,
    pub header: Vec<u8>,
    pub packet: Vec<u8>,
}

/// The longest message and the longest header.
const LONGEST: usize = 32;

/// How many entries a file has: one for each length of message and header.
pub const ENTRIES: usize = (LONGEST + 1) * (LONGEST + 1);

/// The bytes of hexadecimal digits.
fn bytes(digits: &str) -> Vec<u8> {
    assert!(digits.len().is_multiple_of(2), "an odd number of digits");
    (0..digits.len() / 2)
        .map(|i| u8::from_str_radix(&digits[2 * i..2 * i + 2], 16).expect("a hexadecimal digit"))
        .collect()
}

/// An entry of six lines `name = value`.
fn entry(text: &str) -> Entry {
    let mut lines = text.lines();
    let mut value = |name: &str| {
        let line = lines.next().expect("six lines");
        let (found, value) = line.split_once(" =").expect("a line `name = value`");
        assert_eq!(found, name);
        value.trim_start().to_string()
    };
    Entry {
        count: value("Count").parse().expect("a number"),
        key: bytes(&value("Key")),
        nonce: bytes(&value("Nonce")),
        message: bytes(&value("PT")),
        header: bytes(&value("AD")),
        packet: bytes(&value("CT")),
    }
}

/// The text of a variant's file in the folder kat.
fn read(variant: SparkleVariant) -> String {
    let (key, nonce) = (8 * variant.key_bytes(), 8 * variant.nonce_bytes());
    let path = Path::new(env!("CARGO_MANIFEST_DIR"))
        .join(format!("../../kat/LWC_AEAD_KAT_{key}_{nonce}.txt"));
    std::fs::read_to_string(&path).unwrap_or_else(|e| panic!("{}: {e}", path.display()))
}

/// The entries of a variant's file.
///
/// # Panics
///
/// Where the file is not there or is not a known-answer file of this variant.
pub fn entries(variant: SparkleVariant) -> Vec<Entry> {
    let text = read(variant);
    let entries: Vec<Entry> = text.trim_end().split("\n\n").map(entry).collect();
    assert!(entries.iter().map(|entry| entry.count).eq(1..=ENTRIES));
    entries
}

/// Bytes in hexadecimal, as the files have them.
fn digits(bytes: &[u8]) -> String {
    bytes.iter().map(|byte| format!("{byte:02X}")).collect()
}

/// A variant's file by the rule of kat/README.md, with the packets that the
/// Rust original seals.
pub fn make(variant: SparkleVariant) -> String {
    let run = |n: usize| -> Vec<u8> { (0..n as u8).collect() };
    let mut text = String::new();
    for count in 0..ENTRIES {
        let message = run(count / (LONGEST + 1));
        let start = Start {
            opening: false,
            key: run(variant.key_bytes()),
            nonce: run(variant.nonce_bytes()),
            size: variant.tag_bytes(),
            header: run(count % (LONGEST + 1)),
        };
        let packet = sealed(variant, &start, &[], &message);
        writeln!(text, "Count = {}", count + 1).unwrap();
        for (name, bytes) in [
            ("Key", &start.key),
            ("Nonce", &start.nonce),
            ("PT", &message),
            ("AD", &start.header),
            ("CT", &packet),
        ] {
            writeln!(text, "{name} = {}", digits(bytes)).unwrap();
        }
        text.push('\n');
    }
    text
}

#[cfg(test)]
mod tests {
    /// The files are, byte for byte, those that the Rust original gives.
    #[test]
    fn the_files_are_the_originals() {
        for variant in crate::calls::VARIANTS {
            assert!(super::make(variant) == super::read(variant), "{variant}");
        }
    }
}
