//! The differential run as a command:
//!
//!     cargo run --release -p differential -- LISTS [SEED]
//!     cargo run --release -p differential -- exhaustive
//!
//! The first runs so many random lists, and half as many packets sealed or
//! opened at once, each opening by both functions; without a seed it takes a new
//! one and says which. The second runs all lists of a small alphabet of calls up
//! to a length. Both say what the lists held. A difference is shown by its
//! smallest list and ends the run with status 1. The status is 1 too where
//! something that can come up never did, or something that cannot did
//! (`tally.rs`): in a variant, an answer, a call in a phase and direction, or an
//! answer to a packet at once. A few random lists do not have it all; four
//! thousand do with nearly every seed.

use std::process::ExitCode;
use std::time::{SystemTime, UNIX_EPOCH};

use differential::exhaustive::{self, Letter, NARROW, WIDE};
use differential::tally::Tally;
use differential::{one_shot, walks};
use replay::recorder::Recorder;
use replay::scenes;

/// Alphabets and the longest lists of their letters.
const ALPHABETS: [(&[Letter], usize); 2] = [(&WIDE, 4), (&NARROW, 6)];

/// The random lists beside those of the scenes in one round.
const WALKS: usize = 1000;

/// Random lists: three of four made here, one of the scenes of rust/replay.
fn random_lists(tally: &mut Tally, r: &mut Recorder, lists: usize) -> bool {
    while tally.counts.lists < lists {
        (0..WALKS).for_each(|_| walks::walk(r));
        scenes::all(r);
        for list in r.take().iter().take(lists - tally.counts.lists) {
            let spare = r.random.pick(&[0, 0, 1, 33, 34, 100]);
            if !tally.judge(list, spare) {
                return false;
            }
        }
    }
    (0..lists / 2).all(|_| tally.judge_packet(&one_shot::random(r)))
}

/// All lists of the alphabets.
fn all_lists(tally: &mut Tally) -> bool {
    let mut r = exhaustive::recorder();
    ALPHABETS.iter().all(|(letters, longest)| {
        (1..=*longest).all(|length| {
            exhaustive::lists(letters, length, &mut r, &mut |list| tally.judge(list, 0))
        })
    })
}

/// How many lists the alphabets give, over the four variants.
fn number_of_lists() -> usize {
    let of = |letters: usize, longest| (1..=longest).map(|n| 4 * letters.pow(n)).sum::<usize>();
    ALPHABETS
        .iter()
        .map(|(letters, longest)| of(letters.len(), *longest as u32))
        .sum()
}

/// A seed that no run before had.
fn new_seed() -> u64 {
    let now = SystemTime::now().duration_since(UNIX_EPOCH);
    now.map_or(0, |t| t.as_nanos() as u64)
}

fn main() -> ExitCode {
    let arguments: Vec<String> = std::env::args().skip(1).collect();
    let words: Vec<&str> = arguments.iter().map(String::as_str).collect();
    let mut tally = Tally::default();
    let random = words != ["exhaustive"];
    let same = match words[..] {
        ["exhaustive"] => all_lists(&mut tally),
        [lists] | [lists, _] => {
            let seed = words.get(1).map_or(Ok(new_seed()), |seed| seed.parse());
            let (Ok(lists), Ok(seed)) = (lists.parse(), seed) else {
                return usage();
            };
            println!("seed {seed}");
            random_lists(&mut tally, &mut Recorder::new(seed), lists)
        }
        _ => return usage(),
    };
    print!("{tally}");
    if !same {
        println!("differences 1, and no further");
        return ExitCode::FAILURE;
    }
    println!("differences 0");
    let mut faults = tally.faults(random);
    if !random && tally.counts.lists != number_of_lists() {
        faults.push(format!(
            "never came up: one of the {} lists",
            number_of_lists()
        ));
    }
    if faults.is_empty() {
        return ExitCode::SUCCESS;
    }
    println!("{}", faults.join("\n"));
    if random && faults.iter().any(|fault| fault.starts_with("never")) {
        println!("run more lists");
    }
    ExitCode::FAILURE
}

fn usage() -> ExitCode {
    eprintln!("usage: differential LISTS [SEED] | differential exhaustive");
    eprintln!("status 1: a difference, or too few lists for all that can come up");
    ExitCode::from(2)
}
