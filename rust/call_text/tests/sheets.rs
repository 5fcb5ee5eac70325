//! Good files and their sheets: document 01's, and the recorded lists.

use std::fs::File;
use std::iter::once;
use std::process::{Command, Stdio};
use std::thread;
use std::time::Duration;

use call_text::calls::Calls;
use call_text::program::{path, printed, printed_by};
use call_text::writer::{sheet_of, text_of};
use call_text::{original, reader};

/// A file of the port's crates.
fn crates(name: &str) -> String {
    concat!(env!("CARGO_MANIFEST_DIR"), "/../../crates/").to_string() + name
}

fn text(name: &str) -> String {
    std::fs::read_to_string(crates(name)).unwrap()
}

#[test]
fn document_01s_list_gives_its_sheet() {
    let list = File::open(crates("calls/stdin")).unwrap();
    let mut program = Command::new(path());
    let output = program.stdin(Stdio::from(list)).output().unwrap();
    assert_eq!(output.status.code(), Some(0));
    assert_eq!(
        String::from_utf8(output.stdout).unwrap(),
        text("sheet/stdout")
    );
    assert_eq!(text("calls/stdout"), text("sheet/stdout"));
}

/// The reader and the original, by which other files are judged, give
/// document 01's sheet too.
#[test]
fn document_01s_sheet_is_the_originals() {
    let list = text("calls/stdin");
    assert_eq!(original::printed(list.as_bytes()), text("sheet/stdout"));
    assert_eq!(text_of(&reader::read(list.as_bytes()).unwrap()), Ok(list));
}

/// What README shows of examples/day.txt.
#[test]
fn the_example_gives_what_the_readme_shows() {
    let day = text("../examples/day.txt");
    let sheet = printed(day.as_bytes());
    assert_eq!(sheet, original::printed(day.as_bytes()));
    let shown: Vec<&str> = sheet.lines().collect();
    assert_eq!(
        shown[..2],
        ["(sheet (variant 1))", "(init (ok 0) (work 10) (tag 0))"]
    );
    assert_eq!(
        shown[6..8],
        [
            "(final (no 4 23 22) (work 27) (tag 0))",
            "(final (ok 23) (work 37) (tag 1))"
        ]
    );
    let wrong = day.replace("aad 0e", "aad 0E");
    assert_eq!(printed(wrong.as_bytes()), "(no 12 6)\n");
    for line in shown[..2].iter().chain(&shown[6..8]) {
        assert!(text("../README.md").contains(line));
    }
}

/// A read may give less than the file has.
#[test]
fn a_file_that_comes_in_pieces_gives_its_sheet() {
    let list = text("calls/stdin");
    let pause = |_: &&[u8]| thread::sleep(Duration::from_millis(5));
    for length in [1, 40] {
        let (first, rest) = list.as_bytes().split_at(9 * length);
        let pieces = first.chunks(length).inspect(pause);
        let program = &mut Command::new(path());
        let printed = printed_by(program, pieces.chain(once(rest)));
        assert_eq!(printed, text("sheet/stdout"));
    }
}

/// The lists of crates/replay/data/lists with their answers, both in the bytes
/// of docs/HOST.md. `rust/replay/src/file.rs` has the layout.
fn recorded(mut file: &[u8]) -> Vec<(&[u8], &[u8])> {
    let mut lists = Vec::new();
    loop {
        let mut run = || {
            let (length, rest) = file.split_at(8);
            let length = u64::from_le_bytes(length.try_into().unwrap()) as usize;
            let (bytes, rest) = rest.split_at(length);
            file = rest;
            bytes
        };
        let list = run();
        if list.is_empty() {
            return lists;
        }
        lists.push((list, run()));
    }
}

#[test]
fn the_recorded_lists_give_their_sheets() {
    let file = std::fs::read(crates("replay/data/lists")).unwrap();
    let lists = recorded(&file);
    assert_eq!(lists.len(), 396);
    for (list, answers) in lists {
        let calls = Calls::of(list).expect("a list in bytes");
        let text = text_of(&calls).expect("a list that can be written");
        let sheet = sheet_of(&calls, answers).expect("an answer for each call");
        assert_eq!(printed(text.as_bytes()), sheet, "{text}");
        assert_eq!(reader::read(text.as_bytes()), Ok(calls));
    }
}
