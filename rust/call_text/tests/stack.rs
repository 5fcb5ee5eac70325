//! The program on a stack of 512 KiB: on the longest calls, and on brackets in
//! each other.

use std::process::Command;

use call_text::files::of_each_call;
use call_text::{FILE, original, program};

/// What the program prints with so many KiB of stack.
fn printed_within(kib: usize, file: &str) -> String {
    let mut shell = Command::new("sh");
    shell.args(["-c", &format!("ulimit -s {kib} && exec \"$0\"")]);
    shell.arg(program::path());
    program::printed_by(&mut shell, std::iter::once(file.as_bytes()))
}

/// Files of 65,536 bytes: the variant, `before`, and a piece again and again.
fn deep() -> Vec<(&'static str, String)> {
    let files = [
        ("opening brackets", "", "("),
        ("closing brackets", "(mac", ")"),
        ("forms in each other", "", "(a "),
        ("forms to a depth of four", "", "(a (a (a (a a))))\n"),
        ("forms to a depth of five", "", "(a (a (a (a (a a)))))\n"),
        ("forms to a depth of four in one", "(a", " (a (a (a a)))"),
        ("bytes in one form", "(a", " 0a"),
        ("a word", "(", "mac"),
        ("a number", "(update 1", "0"),
        ("digits", "(aad ", "0"),
        ("newlines", "", "\n"),
    ];
    let file = |before: &str, piece: &str| {
        let mut file = format!("(variant 1)\n{before}");
        while file.len() < FILE {
            file.push_str(piece);
        }
        file.truncate(FILE);
        file
    };
    let each = files.iter();
    each.map(|(what, before, piece)| (*what, file(before, piece)))
        .collect()
}

#[test]
fn the_longest_calls_run_on_512_kib_of_stack() {
    for (what, file) in of_each_call() {
        let expected = original::printed(file.as_bytes());
        assert!(expected.starts_with("(sheet"), "{what}: {expected}");
        assert!(printed_within(512, &file) == expected, "{what}");
    }
}

#[test]
fn brackets_in_each_other_are_refused_on_512_kib_of_stack() {
    for (what, file) in deep() {
        assert_eq!(printed_within(512, &file), "(no 12 2)\n", "{what}");
        assert_eq!(original::printed(file.as_bytes()), "(no 12 2)\n", "{what}");
    }
}
