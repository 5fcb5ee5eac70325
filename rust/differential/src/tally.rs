//! What a run has compared, and whether that is all that can come up.

use std::fmt;

use replay::calls::{VARIANTS, variant_number};
use replay::counts::{Counts, index, join};
use replay::recorder::List;

use crate::one_shot::Case;
use crate::{compare, smallest};

/// What was compared, and found equal.
#[derive(Default)]
pub struct Tally {
    pub counts: Counts,
    /// Packets sealed or opened at once, by variant, place in `WAYS` and answer.
    packets: [[[usize; 12]; 3]; 4],
}

/// What is done to a packet at once: the functions of the boundary.
const WAYS: [&str; 3] = ["sealed", "opened", "opened whole"];

/// Places in `WAYS`.
const SEALED: usize = 0;
const OPENED: usize = 1;
const OPENED_WHOLE: usize = 2;

/// Whether a packet at once can have an answer of document 01. What cannot come
/// up is named here and nowhere else. Of lists nothing is excepted: random
/// lists, and the two alphabets together, have in every variant every answer,
/// and every call in every phase and direction.
fn can_come_up(way: usize, code: usize) -> bool {
    match code {
        0 | 1 | 2 | 4 => true,
        // A sealing has no packet that is short and no tag that differs.
        5 | 6 => way != SEALED,
        // docs/HOST.md, "One packet at once": the tag size is the variant's
        // (3), a slice's length is below 2^64 (7), the calls are in order (8
        // to 10), each call has a new engine (11).
        _ => false,
    }
}

impl Tally {
    /// Compares a list; a difference is said.
    pub fn judge(&mut self, list: &List, spare: usize) -> bool {
        if let Err(what) = compare(&host::run, list, spare) {
            println!("difference: {what}\n{}", smallest(&host::run, list));
            return false;
        }
        self.counts.add(list);
        true
    }

    /// Compares a packet sealed at once, or opened at once by both functions; a
    /// difference is said.
    pub fn judge_packet(&mut self, case: &Case) -> bool {
        let answers = if case.start.opening {
            vec![
                (OPENED, case.compare()),
                (OPENED_WHOLE, case.compare_whole()),
            ]
        } else {
            vec![(SEALED, case.compare())]
        };
        for (way, answer) in answers {
            match answer {
                Ok(code) => self.packets[index(case.variant)][way][usize::from(code)] += 1,
                Err(what) => {
                    println!("difference: {what}");
                    return false;
                }
            }
        }
        true
    }

    /// What never came up, and what came up against `can_come_up`, in lines.
    /// Only a run of random lists has packets at once.
    pub fn faults(&self, random: bool) -> Vec<String> {
        if self.counts.lists == 0 {
            return vec!["never came up: a list".to_string()];
        }
        let mut faults = Vec::new();
        for variant in VARIANTS {
            let (mut missing, mut wrong) = (self.counts.missing(variant), Vec::new());
            for (way, name) in WAYS.iter().enumerate() {
                let came = |code: usize| self.packets[index(variant)][way][code] > 0;
                let can = |code: usize| random && can_come_up(way, code);
                let name = |codes| format!("a packet {name} at once with answer {codes}");
                missing.extend(join((0..12).filter(|i| can(*i) && !came(*i))).map(name));
                wrong.extend(join((0..12).filter(|i| came(*i) && !can(*i))).map(name));
            }
            for (what, names) in [("never came up", missing), ("came up and cannot", wrong)] {
                if !names.is_empty() {
                    let (number, names) = (variant_number(variant), names.join("; "));
                    faults.push(format!("{what}: variant {number}: {names}"));
                }
            }
        }
        faults
    }
}

impl fmt::Display for Tally {
    fn fmt(&self, f: &mut fmt::Formatter) -> fmt::Result {
        write!(f, "{}", self.counts)?;
        for (way, name) in WAYS.iter().enumerate() {
            let codes: [usize; 12] =
                std::array::from_fn(|i| self.packets.iter().map(|ways| ways[way][i]).sum());
            let all: usize = codes.iter().sum();
            writeln!(f, "packets {name} at once {all}, by answer: {codes:?}")?;
        }
        Ok(())
    }
}

#[cfg(test)]
mod tests {
    use replay::counts::{CALLS, PLACES};

    use super::{Tally, WAYS, can_come_up};

    /// All that can come up, once.
    fn full() -> Tally {
        let codes = |way| std::array::from_fn(|i| usize::from(can_come_up(way, i)));
        let mut tally = Tally::default();
        tally.counts.lists = 1;
        tally.counts.codes = [[1; 12]; 4];
        tally.counts.places = [[[1; 8]; 9]; 4];
        tally.packets = [std::array::from_fn(codes); 4];
        tally
    }

    /// Each fault by itself is said, and nothing else.
    #[test]
    fn each_fault_is_said() {
        assert_eq!(full().faults(true), [""; 0]);
        for v in 0..4 {
            let fault = |change: &dyn Fn(&mut Tally), what: &str, name: String| {
                let mut tally = full();
                change(&mut tally);
                let line = format!("{what}: variant {}: {name}", v + 1);
                assert_eq!(tally.faults(true), [line]);
            };
            for code in 0..12 {
                let change = |tally: &mut Tally| tally.counts.codes[v][code] = 0;
                fault(&change, "never came up", format!("answer {code}"));
                for (way, name) in WAYS.iter().enumerate() {
                    let what = if can_come_up(way, code) {
                        "never came up"
                    } else {
                        "came up and cannot"
                    };
                    let change = |tally: &mut Tally| tally.packets[v][way][code] ^= 1;
                    let name = format!("a packet {name} at once with answer {code}");
                    fault(&change, what, name);
                }
            }
            for (i, place) in PLACES.iter().enumerate() {
                for (kind, call) in CALLS.iter().enumerate() {
                    let change = |tally: &mut Tally| tally.counts.places[v][i][kind] = 0;
                    fault(&change, "never came up", format!("{call} in {place}"));
                }
            }
        }
    }
}
