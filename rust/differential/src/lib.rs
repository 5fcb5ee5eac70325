//! The differential run: the port, through its host boundary (docs/HOST.md),
//! and the Rust original get the same call lists, and every answer is compared:
//! the reply's number, its count or values, whether a tag can be read, the tag,
//! and every byte of every output, written or not.
//!
//! The Rust has no refusal numbers and no steps: `replay::calls` maps its
//! errors to document 01's numbers, `replay::recorder` counts the steps by
//! document 01's formula. Where the two are known to differ
//! (docs/DIFFERENCES.md) the port is held to document 01, the Rust to what that
//! page says of it.

pub mod exhaustive;
pub mod one_shot;
pub mod tally;
pub mod walks;

use std::fmt::Write;

use host::{Answers, Ran};
use replay::boundary::{call_list, expected};
use replay::calls::{Call, PANICKED, variant_number};
use replay::recorder::{List, play};

/// What runs a list and writes its answers: `host::run`, or in tests of the
/// comparison itself something that does it wrongly.
pub type Port<'a> = &'a dyn Fn(&[u8], &mut [u8]) -> Ran;

/// Runs a list on the port, with `spare` bytes of answers more than it needs,
/// and compares all that comes back. An error says what differs.
pub fn compare(port: Port, list: &List, spare: usize) -> Result<(), String> {
    let calls = call_list(list);
    let mut expected = expected(list);
    expected.resize(expected.len() + spare, 0xa5);
    let mut answers = vec![0xa5; expected.len()];
    let ran = port(calls.bytes(), &mut answers);
    let all = Ran {
        code: 0,
        place: calls.bytes().len(),
    };
    if ran != all {
        return Err(format!("the list: port {ran:?}, expected {all:?}"));
    }
    if answers == expected {
        return Ok(());
    }
    Err(first_difference(list, &answers, &expected))
}

/// Says where answers differ.
fn first_difference(list: &List, answers: &[u8], expected: &[u8]) -> String {
    let pairs = Answers(answers).zip(Answers(expected));
    for (i, (port, original)) in pairs.enumerate().take(list.calls.len()) {
        if port != original {
            return format!("call {}: port {port:x?}, expected {original:x?}", i + 1);
        }
    }
    "the answers behind the last call".to_string()
}

/// The calls, one form a line, with what the last one answered.
fn say(list: &List) -> String {
    let mut text = format!("(variant {})\n", variant_number(list.variant));
    for played in &list.calls {
        writeln!(text, "{}", played.call).unwrap();
    }
    let last = list.calls.last().map(|played| played.original.code);
    if last == Some(PANICKED) {
        text.push_str("the Rust panics at the last call\n");
    }
    text
}

/// The smallest part of a list that shows a difference, in readable form: the
/// shortest prefix, and of it the calls that cannot be left out.
pub fn smallest(port: Port, list: &List) -> String {
    let calls: Vec<&Call> = list.calls.iter().map(|played| &played.call).collect();
    let differs = |calls: &[&Call]| {
        let list = play(list.variant, calls.iter().copied());
        compare(port, &list, 0).err().map(|what| (list, what))
    };
    let prefix = (0..=calls.len()).find(|n| differs(&calls[..*n]).is_some());
    let Some(n) = prefix else {
        return format!("{}a difference that does not come again\n", say(list));
    };
    let mut text = format!("the shortest prefix has {n} calls; of them these are needed:\n");
    let mut kept = calls[..n].to_vec();
    let mut at = kept.len();
    while at > 0 {
        at -= 1;
        let mut fewer = kept.clone();
        fewer.remove(at);
        if differs(&fewer).is_some() {
            kept = fewer;
        }
    }
    let (list, what) = differs(&kept).expect("the calls that were kept differ");
    writeln!(text, "{}{what}", say(&list)).unwrap();
    text
}
