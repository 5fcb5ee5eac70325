//! Long files: of exactly so many bytes, the most bytes where nothing else is
//! said.

use crate::writer::hexadecimal;
use crate::{FILE, OUTPUT};

/// A start of variant 1 that is taken.
pub const START: &str = "(variant 1)\n\
    (init seal (key 00000000000000000000000000000000) (nonce 00000000000000000000000000000000) \
    (tag 16) (header -))\n";

/// The head, then these lines again and again while they fit, then `(mac)`
/// while it fits, then a query whose number is as long as it has to be, and
/// `end` behind it.
pub fn repeated(length: usize, head: &str, lines: &str, end: &str) -> String {
    let shortest = "(update 1)".len() + end.len();
    let mut file = head.to_string();
    for lines in [lines, "(mac)\n"] {
        let room = length - file.len() - shortest;
        file.push_str(&lines.repeat(room / lines.len()));
    }
    let digits = "1".repeat(length - file.len() - shortest + 1);
    file.push_str(&format!("(update {digits}){end}"));
    assert_eq!(file.len(), length);
    file
}

/// A form that holds as many bytes as the file has room for, between `before`
/// and `behind`.
pub fn longest(before: &str, behind: &str) -> String {
    let bytes = (FILE - before.len() - behind.len()) / 2;
    let bytes: Vec<u8> = (0..bytes).map(|i| (i * i / 7) as u8).collect();
    format!("{before}{}{behind}", hexadecimal(&bytes))
}

/// Files that make the most of each call.
pub fn of_each_call() -> Vec<(&'static str, String)> {
    let filled = |lines| repeated(FILE, START, lines, "\n");
    let zeros = hexadecimal(&[0; 16]);
    let (key, nonce) = (format!("(key {zeros})"), format!("(nonce {zeros})"));
    let init = |field: &str, behind: &str| {
        longest(
            &format!("(variant 1)\n(init seal {field}"),
            &format!("{behind})\n"),
        )
    };
    vec![
        ("mac", filled("(mac)\n")),
        ("an empty data call", filled("(data - 0)\n")),
        ("a header and a reset", filled("(aad 0a)\n(reset)\n")),
        (
            "the longest data",
            longest(&format!("{START}(data "), &format!(" {OUTPUT})\n")),
        ),
        (
            "the longest associated data",
            longest(&format!("{START}(aad "), ")\n"),
        ),
        (
            "the longest key",
            init("(key ", &format!(") {nonce} (tag 16) (header -)")),
        ),
        (
            "the longest nonce",
            init(&format!("{key} (nonce "), ") (tag 16) (header -)"),
        ),
        (
            "the longest header",
            init(&format!("{key} {nonce} (tag 16) (header "), ")"),
        ),
        (
            "a start",
            repeated(
                FILE,
                "(variant 1)\n",
                &START.replace("(variant 1)\n", ""),
                "\n",
            ),
        ),
    ]
}
