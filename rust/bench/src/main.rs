//! Benchmark of the permutation: nanoseconds a call, the port beside the Rust,
//! for each size at its slim and its big steps. Each call takes the state that
//! the call before it left, so a call's whole latency is measured. All
//! contenders take turns in each round, and a contender's number is the median
//! of its rounds; a second table has the fastest round, so that a disturbed
//! run shows. Results are compared first: a difference ends the run.

mod contenders;

use std::hint::black_box;
use std::process::ExitCode;
use std::time::{Duration, Instant};

use contenders::{Contender, Permutation, State};

/// State words and steps, slim and big, of the variants.
const CASES: [(usize, usize); 6] = [(8, 7), (8, 10), (12, 7), (12, 11), (16, 8), (16, 12)];

/// The table's columns: the case, the contenders, the ratios.
const COLUMNS: [&str; 11] = [
    "words",
    "steps",
    "Rust scalar, run-time size",
    "Rust scalar, compile-time size",
    "Rust SSE2",
    "Rattle scalar",
    "Rattle groups",
    "Rattle scalar / Rust run-time size",
    "Rattle scalar / Rust compile-time size",
    "Rattle groups / Rust SSE2",
    "Rattle scalar / Rust SSE2",
];

/// The ratios, in the order of the columns.
const RATIOS: [(Contender, Contender); 4] = [
    (Contender::RattleScalar, Contender::RustRunTime),
    (Contender::RattleScalar, Contender::RustCompileTime),
    (Contender::RattleGroups, Contender::RustSse2),
    (Contender::RattleScalar, Contender::RustSse2),
];

/// Rounds, where `--rounds` does not say.
const ROUNDS: usize = 41;

/// How long a contender runs in one round.
const SLICE: Duration = Duration::from_millis(2);

/// How long a contender runs before the first round.
const WARM_UP: Duration = Duration::from_millis(20);

/// One contender at one size and number of steps, with its measurements.
struct Entry {
    contender: Contender,
    permutation: Permutation,
    words: usize,
    steps: usize,
    state: State,
    calls: u32,
    times: Vec<f64>,
}

impl Entry {
    /// Runs `calls` calls, each on the state that the call before it left.
    fn run(&mut self, calls: u32) -> Duration {
        let permutation = black_box(self.permutation);
        let (words, steps) = (black_box(self.words), black_box(self.steps));
        let mut state = black_box(self.state);
        let start = Instant::now();
        for _ in 0..calls {
            permutation(&mut state, words, steps);
        }
        let elapsed = start.elapsed();
        self.state = black_box(state);
        elapsed
    }

    /// Warms up and sets how many calls fill a round's slice.
    fn warm_up(&mut self) {
        let mut calls = 1000;
        loop {
            let elapsed = self.run(calls);
            if elapsed >= WARM_UP {
                let share = SLICE.as_secs_f64() / elapsed.as_secs_f64();
                self.calls = ((f64::from(calls) * share) as u32).max(1);
                return;
            }
            calls *= 2;
        }
    }

    /// Runs one round and notes the nanoseconds a call.
    fn round(&mut self) {
        let elapsed = self.run(self.calls);
        self.times
            .push(elapsed.as_nanos() as f64 / f64::from(self.calls));
    }

    /// The median of the rounds.
    fn median(&self) -> f64 {
        let mut times = self.times.clone();
        times.sort_by(f64::total_cmp);
        let (low, high) = (times[(times.len() - 1) / 2], times[times.len() / 2]);
        (low + high) / 2.0
    }

    /// The fastest of the rounds.
    fn fastest(&self) -> f64 {
        self.times.iter().copied().fold(f64::INFINITY, f64::min)
    }
}

/// The states that results are compared on; the last starts the measurement.
fn starts() -> [State; 4] {
    [
        [0; 16],
        std::array::from_fn(|i| i as u32),
        [0xffff_ffff; 16],
        std::array::from_fn(|i| (i as u32 + 1).wrapping_mul(0x9e37_79b9)),
    ]
}

/// Compares all contenders with the first, for each size and up to 40 steps,
/// on all 16 words of the array.
fn compare() -> Result<(), String> {
    for start in starts() {
        for words in [8, 12, 16] {
            for steps in 0..=40 {
                compare_at(start, words, steps)?;
            }
        }
    }
    Ok(())
}

/// Compares all contenders with the first on one state.
fn compare_at(start: State, words: usize, steps: usize) -> Result<(), String> {
    let mut expected = None;
    for contender in Contender::ALL {
        let Some(permutation) = contender
            .permutation(words)
            .filter(|_| contender.runs(steps))
        else {
            continue;
        };
        let mut state = start;
        permutation(&mut state, words, steps);
        if *expected.get_or_insert(state) != state {
            return Err(format!(
                "{contender:?} differs at {words} words, {steps} steps, from {start:08x?}"
            ));
        }
    }
    Ok(())
}

/// The contenders of all cases, with nothing measured yet.
fn entries() -> Vec<Entry> {
    let mut entries = Vec::new();
    for (words, steps) in CASES {
        for contender in Contender::ALL {
            if let Some(permutation) = contender.permutation(words) {
                entries.push(Entry {
                    contender,
                    permutation,
                    words,
                    steps,
                    state: starts()[3],
                    calls: 0,
                    times: Vec::new(),
                });
            }
        }
    }
    entries
}

/// Prints a table of `number`: nanoseconds a call, then ratios.
fn print_table(entries: &[Entry], number: fn(&Entry) -> f64) {
    println!("| {} |", COLUMNS.join(" | "));
    println!("|{}", "---:|".repeat(COLUMNS.len()));
    for (words, steps) in CASES {
        let time = |contender| {
            entries
                .iter()
                .find(|e| (e.contender, e.words, e.steps) == (contender, words, steps))
                .map(number)
        };
        let ratio = |(a, b)| Some(time(a)? / time(b)?);
        let mut row = vec![words.to_string(), steps.to_string()];
        row.extend(Contender::ALL.map(|contender| cell(time(contender), 1)));
        row.extend(RATIOS.map(|pair| cell(ratio(pair), 2)));
        println!("| {} |", row.join(" | "));
    }
}

/// A number with `digits` digits after the point, or a dash where there is
/// none.
fn cell(number: Option<f64>, digits: usize) -> String {
    number.map_or_else(|| "-".to_string(), |n| format!("{n:.digits$}"))
}

/// The number of rounds that the arguments ask for.
fn rounds() -> Result<usize, String> {
    let arguments: Vec<String> = std::env::args().skip(1).collect();
    match arguments.as_slice() {
        [] => Ok(ROUNDS),
        [option, number] if option == "--rounds" => match number.parse() {
            Ok(rounds) if rounds > 0 => Ok(rounds),
            _ => Err(format!("not a number of rounds: {number}")),
        },
        _ => Err("usage: bench [--rounds N]".to_string()),
    }
}

/// Compares, measures and prints.
fn benchmark() -> Result<(), String> {
    let rounds = rounds()?;
    compare()?;
    let mut entries = entries();
    for entry in &mut entries {
        entry.times.reserve(rounds);
        entry.warm_up();
    }
    for _ in 0..rounds {
        for entry in &mut entries {
            entry.round();
        }
    }
    if cfg!(debug_assertions) {
        println!("A debug build: these numbers say nothing about speed.\n");
    }
    println!("Nanoseconds a call, median of {rounds} rounds. All results are equal.\n");
    print_table(&entries, Entry::median);
    println!("\nThe same, fastest round.\n");
    print_table(&entries, Entry::fastest);
    Ok(())
}

fn main() -> ExitCode {
    match benchmark() {
        Ok(()) => ExitCode::SUCCESS,
        Err(message) => {
            eprintln!("{message}");
            ExitCode::FAILURE
        }
    }
}
