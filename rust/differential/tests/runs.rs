//! A run that compares too little fails, and says what never came up.

use std::process::Command;

/// What a run of so many lists writes; it has to fail.
fn failing(lists: &str) -> String {
    let run = Command::new(env!("CARGO_BIN_EXE_differential"))
        .args([lists, "1"])
        .output()
        .unwrap();
    assert_eq!(run.status.code(), Some(1));
    String::from_utf8(run.stdout).unwrap()
}

#[test]
fn no_lists_fail() {
    assert!(failing("0").contains("\nnever came up: a list\n"));
}

#[test]
fn few_lists_fail() {
    let text = failing("10");
    assert!(text.contains("\ndifferences 0\nnever came up: variant 1: answer "));
}
