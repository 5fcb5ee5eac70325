//! Random text never stops the program, and program and reader agree on it.

use call_text::calls::Calls;
use call_text::writer::text_of;
use call_text::{original, program};
use differential::walks::walk;
use replay::boundary::call_list;
use replay::random::Random;
use replay::recorder::Recorder;

/// The bytes of good files.
const ALPHABET: &[u8] = b"() \n-0123456789abcdefghijklmnopqrstuvwxyz";

/// What good files consist of.
const PIECES: [&str; 32] = [
    "(", ")", " ", "\n", "-", "0", "1", "4", "5", "00", "0a", "16", "17", "32", "007", "32768",
    "32769", "ff", "variant", "init", "seal", "open", "key", "nonce", "tag", "header", "aad",
    "data", "final", "update", "output", "reset",
];

/// Lines that are good behind the variant's, and some that are good nowhere.
const LINES: [&str; 16] = [
    "(init seal (key 00000000000000000000000000000000) (nonce 01010101010101010101010101010101) (tag 16) (header -))",
    "(init open (key 00000000000000000000000000000000) (nonce 01010101010101010101010101010101) (tag 16) (header 0a))",
    "(aad 0a)",
    "(aad -)",
    "(data 0a0b 32)",
    "(data 000102030405060708090a0b0c0d0e0f10 16)",
    "(data - 0)",
    "(final 16)",
    "(final 33)",
    "(update 5)",
    "(output 18446744073709551615)",
    "(mac)",
    "(reset)",
    "(variant 2)",
    "(mac )",
    "(final 00)",
];

/// One refusal, or a sheet with a line for each line of the file.
fn has_a_shape(file: &[u8], printed: &str) -> bool {
    let number = printed
        .strip_prefix("(no 12 ")
        .and_then(|rest| rest.strip_suffix(")\n"));
    if let Some(number) = number {
        return number.parse::<usize>().is_ok();
    }
    let newlines = file.iter().filter(|byte| **byte == b'\n').count();
    let lines = newlines + usize::from(file.last() != Some(&b'\n'));
    let all_end = printed.ends_with("))\n") && printed.lines().all(|line| line.ends_with("))"));
    printed.starts_with("(sheet (variant ") && all_end && printed.lines().count() == lines
}

/// Compares what is printed for a file; whether it is a sheet.
fn agree(file: &[u8]) -> bool {
    let printed = program::printed(file);
    let shown = String::from_utf8_lossy(file);
    assert!(has_a_shape(file, &printed), "{shown:?}: {printed}");
    assert_eq!(printed, original::printed(file), "{shown:?}");
    printed.starts_with("(sheet")
}

/// How many of the files give a sheet.
fn sheets(files: impl Iterator<Item = Vec<u8>>) -> usize {
    files.filter(|file| agree(file)).count()
}

#[test]
fn random_bytes_are_refused() {
    let mut random = Random(1);
    let files = (0..400).map(|_| {
        let length = random.below(300);
        random.bytes(length)
    });
    assert_eq!(sheets(files), 0);
}

#[test]
fn random_printable_text_is_refused() {
    let mut random = Random(2);
    let files = (0..400).map(|i| {
        let printable: Vec<u8> = (b' '..=b'~').chain([b'\n', b'\n', b'\n']).collect();
        let from = if i % 2 == 0 { &printable } else { ALPHABET };
        let length = random.below(300);
        let text = (0..length).map(|_| random.pick(from));
        if i % 4 < 2 {
            text.collect()
        } else {
            b"(variant 1)\n(".iter().copied().chain(text).collect()
        }
    });
    assert_eq!(sheets(files), 0);
}

/// Forms of the right words in any sequence: mostly not in their place.
#[test]
fn random_pieces_agree() {
    let mut random = Random(3);
    let files = (0..400).map(|_| {
        let mut text = "(variant 1)\n(".to_string();
        for _ in 0..random.below(14) {
            text.push_str(random.pick(&PIECES));
            if random.once_in(2) {
                text.push_str(random.pick(&[" ", ")", ")\n("]));
            }
        }
        text.push(')');
        text.into_bytes()
    });
    sheets(files);
}

#[test]
fn random_lines_agree() {
    let mut random = Random(4);
    let files = (0..400).map(|_| {
        let mut lines = vec![random.pick(&["(variant 1)", "(variant 3)"])];
        let good = random.pick(&[13, 13, LINES.len()]);
        lines.extend((0..random.below(12)).map(|_| random.pick(&LINES[..good])));
        lines.join("\n").into_bytes()
    });
    let sheets = sheets(files);
    assert!((100..390).contains(&sheets), "{sheets}");
}

/// Where a file has digits, or has none.
fn places(file: &[u8], digits: bool) -> Vec<usize> {
    let at = |at: &usize| file[*at].is_ascii_hexdigit() == digits;
    (0..file.len()).filter(at).collect()
}

/// A digit that is another one.
fn change_digit(random: &mut Random, file: &mut [u8]) {
    file[random.pick(&places(file, true))] = random.pick(b"0123456789abcdef");
}

/// A byte that is another one, is left out, or comes between. Every second
/// change is outside the digits, which most of a file is.
fn change(random: &mut Random, file: &mut Vec<u8>) {
    let digits = random.once_in(2);
    let at = random.pick(&places(file, digits));
    let byte = match random.below(2) {
        0 => random.word() as u8,
        _ => random.pick(ALPHABET),
    };
    match random.below(4) {
        0 => file.insert(at, byte),
        1 => drop(file.remove(at)),
        _ => file[at] = byte,
    }
}

#[test]
fn good_files_with_changed_bytes_agree() {
    let mut r = Recorder::new(5);
    (0..1000).for_each(|_| walk(&mut r));
    let lists = r.take();
    let files = lists.iter().enumerate().map(|(i, list)| {
        let calls = Calls::of(call_list(list).bytes()).expect("a list in bytes");
        let mut file = text_of(&calls)
            .expect("a list that can be written")
            .into_bytes();
        for _ in 0..1 + r.random.below(3) {
            if i % 2 == 0 {
                change(&mut r.random, &mut file);
            } else {
                change_digit(&mut r.random, &mut file);
            }
        }
        file
    });
    let sheets = sheets(files);
    assert!((100..900).contains(&sheets), "{sheets}");
}
