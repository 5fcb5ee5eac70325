//! Writes call lists with the answers of the Rust's engine, for the program
//! `replay` of the port: `cargo run --release -p replay > FILE`, or with the
//! file's path as the argument. Every run writes the same bytes;
//! crates/replay/data/lists is one. What the lists hold is counted on standard
//! error. `file.rs` has the layout of the file.

use std::io::Write;

use replay::calls::VARIANTS;
use replay::counts::Counts;
use replay::file::{file, tags_read};
use replay::recorder::{List, Recorder};
use replay::scenes;

fn record() -> Vec<List> {
    let mut r = Recorder::new(0x5343_4857_4145_4d4d);
    scenes::all(&mut r);
    scenes::known_answers(&mut r);
    r.take().iter().map(tags_read).collect()
}

/// What the lists hold.
///
/// # Panics
///
/// Where a variant lacks an answer, or a call in a phase and direction.
fn count(lists: &[List]) -> Counts {
    let mut counts = Counts::default();
    lists.iter().for_each(|list| counts.add(list));
    for variant in VARIANTS {
        let missing = counts.missing(variant);
        assert!(missing.is_empty(), "{variant} never has {missing:?}");
    }
    counts
}

fn main() -> std::io::Result<()> {
    let lists = record();
    eprint!("{}", count(&lists));
    let file = file(&lists);
    match std::env::args_os().nth(1) {
        Some(path) => std::fs::write(path, file),
        None => std::io::stdout().write_all(&file),
    }
}

#[cfg(test)]
mod tests {
    use replay::calls::Call;

    /// A file of the port's program.
    fn kept(name: &str) -> Vec<u8> {
        let folder = concat!(env!("CARGO_MANIFEST_DIR"), "/../../crates/replay");
        std::fs::read(format!("{folder}/{name}")).unwrap()
    }

    /// The port's data file is what this program writes, and the port's program
    /// has to count as many lists and calls.
    #[test]
    fn the_file_is_kept() {
        let lists = super::record();
        assert!(kept("data/lists") == super::file(&lists));
        let calls: usize = lists.iter().map(|list| list.calls.len()).sum();
        let counts = format!("lists {} calls {calls} differences 0\n", lists.len());
        assert_eq!(kept("stdout"), counts.as_bytes());
    }

    /// Wherever a tag can be read after a call, it is compared.
    #[test]
    fn every_tag_is_read() {
        for list in super::record() {
            for (i, played) in list.calls.iter().enumerate() {
                let reads = |i: usize| list.calls.get(i).is_some_and(|p| p.call == Call::Mac);
                assert!(played.tag.is_none() || reads(i) || reads(i + 1));
            }
        }
    }

    /// Every variant has every answer, and every call in every phase and
    /// direction.
    #[test]
    fn nothing_is_missing() {
        super::count(&super::record());
    }
}
