//! What lists hold, counted by variant, and what of it never came up.

use std::fmt;

use tc_sparkle_aead::SparkleVariant;

use crate::calls::{Call, PANICKED, variant_number};
use crate::recorder::List;

/// The phases with their directions, in the order of `Played::place`.
pub const PLACES: [&str; 9] = [
    "Uninitialized",
    "Init sealing",
    "Init opening",
    "Aad sealing",
    "Aad opening",
    "Data sealing",
    "Data opening",
    "Final sealing",
    "Final opening",
];

/// The calls, in the order of `kind`.
pub const CALLS: [&str; 8] = [
    "init",
    "process_aad_bytes",
    "process_bytes",
    "do_final",
    "reset",
    "mac",
    "update_output_len",
    "output_len",
];

/// Which of the eight calls this is.
fn kind(call: &Call) -> usize {
    match call {
        Call::Init(_) => 0,
        Call::Aad { .. } => 1,
        Call::Data { .. } => 2,
        Call::End { .. } => 3,
        Call::Reset => 4,
        Call::Mac => 5,
        Call::UpdateOutputLen(_) => 6,
        Call::OutputLen(_) => 7,
    }
}

/// What all lists hold together.
#[derive(Default)]
pub struct Counts {
    pub lists: usize,
    pub calls: usize,
    /// How many calls answered each of document 01's numbers (0: ok), by
    /// variant.
    pub codes: [[usize; 12]; 4],
    /// How many calls of each kind there are in each phase and direction, by
    /// variant.
    pub places: [[[usize; 8]; 9]; 4],
    /// Ends in opening Aad, whose answers are document 01's, and how many of
    /// them the Rust panicked at.
    pub by_document: [usize; 2],
}

impl Counts {
    /// Counts a list's calls.
    pub fn add(&mut self, list: &List) {
        let variant = index(list.variant);
        self.lists += 1;
        self.calls += list.calls.len();
        for played in &list.calls {
            self.codes[variant][usize::from(played.answer.code)] += 1;
            self.places[variant][played.place][kind(&played.call)] += 1;
            self.by_document[0] += usize::from(played.answer != played.original);
            self.by_document[1] += usize::from(played.original.code == PANICKED);
        }
    }

    /// What never came up in a variant: answers, and calls in a phase and
    /// direction.
    pub fn missing(&self, variant: SparkleVariant) -> Vec<String> {
        let variant = index(variant);
        let answers = join(zeros(&self.codes[variant])).map(|codes| format!("answer {codes}"));
        let places = PLACES.iter().zip(&self.places[variant]);
        let calls = places.filter_map(|(place, calls)| {
            let names = join(zeros(calls).map(|kind| CALLS[kind]));
            names.map(|names| format!("{names} in {place}"))
        });
        answers.into_iter().chain(calls).collect()
    }
}

/// A variant's place in what is counted by variant.
pub fn index(variant: SparkleVariant) -> usize {
    usize::from(variant_number(variant)) - 1
}

/// Where a count is 0.
fn zeros(counts: &[usize]) -> impl Iterator<Item = usize> {
    (0..counts.len()).filter(|i| counts[*i] == 0)
}

/// The names, a comma between two, where there is one at all.
pub fn join<T: ToString>(names: impl Iterator<Item = T>) -> Option<String> {
    let names: Vec<String> = names.map(|name| name.to_string()).collect();
    (!names.is_empty()).then(|| names.join(", "))
}

/// The sums over the variants.
fn sums<const N: usize>(by_variant: [[usize; N]; 4]) -> [usize; N] {
    std::array::from_fn(|i| by_variant.iter().map(|counts| counts[i]).sum())
}

/// The counts of all variants together, in lines.
impl fmt::Display for Counts {
    fn fmt(&self, f: &mut fmt::Formatter) -> fmt::Result {
        writeln!(f, "lists {} calls {}", self.lists, self.calls)?;
        writeln!(f, "answers 0 (ok) to 11: {:?}", sums(self.codes))?;
        let [ends, panics] = self.by_document;
        writeln!(
            f,
            "ends in opening Aad (docs/DIFFERENCES.md): {ends}; the Rust panics at {panics}"
        )?;
        writeln!(f, "calls {}, in", CALLS.join(", "))?;
        for (i, place) in PLACES.iter().enumerate() {
            writeln!(f, "  {place}: {:?}", sums(self.places.map(|p| p[i])))?;
        }
        Ok(())
    }
}
