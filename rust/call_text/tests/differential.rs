//! The differential run as text: random lists of rust/differential, run by the
//! program and by the Rust original, by the same rules.

use std::thread;

use call_text::calls::Calls;
use call_text::program;
use call_text::writer::{sheet_of, text_of};
use differential::walks::walk;
use replay::boundary::{call_list, expected};
use replay::calls::{VARIANTS, variant_number};
use replay::counts::Counts;
use replay::recorder::{List, Recorder};

const LISTS: usize = 6000;

/// The list's calls, as the differential run shows them.
fn shown(list: &List) -> String {
    let mut text = format!("(variant {})\n", variant_number(list.variant));
    for played in &list.calls {
        text.push_str(&format!("{}\n", played.call));
    }
    text
}

/// Runs a list; a difference is shown by its shortest file.
fn compare(list: &List) {
    let calls = Calls::of(call_list(list).bytes()).expect("a list in bytes");
    let text = text_of(&calls).expect("a list that can be written");
    let sheet = sheet_of(&calls, &expected(list)).expect("an answer for each call");
    assert_eq!(text, shown(list));
    let printed = program::printed(text.as_bytes());
    if printed == sheet {
        return;
    }
    let differs = printed
        .lines()
        .zip(sheet.lines())
        .take_while(|(a, b)| a == b);
    let n = differs.count();
    let file: Vec<&str> = text.lines().take(n + 1).collect();
    let line = |of: &str| of.lines().nth(n).unwrap_or("nothing").to_string();
    panic!(
        "{}\nprinted {}, expected {}",
        file.join("\n"),
        line(&printed),
        line(&sheet)
    );
}

#[test]
fn random_lists_give_the_originals_sheets() {
    let mut r = Recorder::new(1);
    (0..LISTS).for_each(|_| walk(&mut r));
    let lists = r.take();
    let mut counts = Counts::default();
    lists.iter().for_each(|list| counts.add(list));
    assert_eq!(counts.lists, LISTS);
    for variant in VARIANTS {
        let missing = counts.missing(variant);
        assert!(missing.is_empty(), "{variant} never has {missing:?}");
    }
    let threads = thread::available_parallelism().map_or(1, usize::from);
    thread::scope(|scope| {
        for part in lists.chunks(LISTS.div_ceil(threads)) {
            scope.spawn(|| part.iter().for_each(compare));
        }
    });
}
