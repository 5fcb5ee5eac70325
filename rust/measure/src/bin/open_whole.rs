//! Benchmark of `schwaemm_open_whole` (document 02, 2026-03) beside
//! `schwaemm_open`, on the same packets, with the right tag and with a wrong one:
//!
//!     cargo run --release -p measure --bin open_whole -- [--rounds N]
//!
//! Both functions and both tags take turns in each round. A ratio is taken in each
//! round, and the median of the rounds' ratios is shown. What the functions answer
//! and leave in the output is compared first. The goals are looked at last.

use std::hint::black_box;
use std::process::ExitCode;

use host::{Done, Packet};
use measure::contenders::{Job, Operation, VARIANTS};
use measure::rounds::{HEADERS, LENGTHS, Times, in_turn, parse_rounds};

/// A function that opens.
type Open = fn(Packet, &mut [u8]) -> Done;

/// What takes turns: a function, and the place of a tag in `TAGS`.
const ENTRIES: [(Open, usize); 4] = [
    (host::open, 0),
    (host::open_whole, 0),
    (host::open, 1),
    (host::open_whole, 1),
];

/// The tags with the answer to each, and the goals: how long `schwaemm_open_whole`
/// may take of `schwaemm_open`'s time, from `GOAL_LENGTH` bytes on.
const TAGS: [(&str, u8, f64); 2] = [("right tag", 0, 2.1), ("wrong tag", 6, 1.1)];
const GOAL_LENGTH: usize = 64;

/// Rounds, where `--rounds` does not say: more than in `packets`, since each ratio
/// is held against a goal.
const ROUNDS: usize = 61;

/// The times of the entries on one packet.
struct Row {
    variant: usize,
    header: usize,
    length: usize,
    times: [Times; 4],
}

impl Row {
    /// The time of `schwaemm_open_whole` in that of `schwaemm_open`, with a tag
    /// of `TAGS`.
    fn ratio(&self, tag: usize) -> f64 {
        self.times[2 * tag + 1].ratio_to(&self.times[2 * tag])
    }
}

/// One packet with the right tag and the same with a wrong one.
fn jobs(variant: usize, header: usize, length: usize) -> [Job; 2] {
    let new = || Job::new(variant, Operation::Open, header, length);
    let [right, mut wrong] = [new(), new()];
    *wrong.input.last_mut().expect("a tag") ^= 1;
    [right, wrong]
}

/// Compares what the functions answer and leave in the output.
fn compare(jobs: &mut [Job; 2]) -> Result<(), String> {
    for (tag, job) in jobs.iter_mut().enumerate() {
        let (name, code, _) = TAGS[tag];
        let mut left = [host::open, host::open_whole].map(|open| {
            job.output.fill(0xee);
            let (packet, output) = job.lend();
            let done = open(packet, output);
            (done, job.output.clone())
        });
        if code != 0 {
            left[0].1.fill(0xee);
        }
        if left[0] != left[1] || left[0].0.code != code {
            return Err(format!("the answers differ: {name}"));
        }
    }
    Ok(())
}

/// Measures one packet.
fn measure(jobs: &mut [Job; 2], rounds: usize) -> [Times; 4] {
    in_turn(ENTRIES, rounds, |(open, tag)| {
        let (packet, output) = black_box(&mut jobs[tag]).lend();
        let done = open(packet, output);
        assert_eq!(done.code, TAGS[tag].1);
    })
}

/// A table of nanoseconds a packet, by the median, and of ratios.
fn table(rows: &[Row]) -> String {
    let names = TAGS.map(|(name, _, _)| {
        format!("`schwaemm_open`, {name} | `schwaemm_open_whole`, {name} | ratio")
    });
    let mut text = format!("| variant | header | message | {} |\n", names.join(" | "));
    text += &format!("|---:|---:|---:|{}\n", "---:|".repeat(6));
    for row in rows {
        let times = row.times.each_ref();
        let [open, whole, open_wrong, whole_wrong] = times.map(|t| format!("{:.0}", t.median()));
        let ratios = [0, 1].map(|tag| format!("{:.2}", row.ratio(tag)));
        let [right, wrong] = ratios;
        let numbers = [row.variant + 1, row.header, row.length].map(|n| n.to_string());
        let cells = [open, whole, right, open_wrong, whole_wrong, wrong];
        text += &format!("| {} | {} |\n", numbers.join(" | "), cells.join(" | "));
    }
    text
}

/// Each goal with the smallest and the largest ratio.
fn goals(rows: &[Row]) -> String {
    let mut text = "| goal | ratios | |\n|---|---|---|\n".to_string();
    for (tag, (name, _, goal)) in TAGS.into_iter().enumerate() {
        let counted = rows.iter().filter(|row| row.length >= GOAL_LENGTH);
        let ratios: Vec<f64> = counted.map(|row| row.ratio(tag)).collect();
        let least = ratios.iter().copied().fold(f64::INFINITY, f64::min);
        let most = ratios.iter().copied().fold(0.0, f64::max);
        let verdict = if most <= goal { "reached" } else { "missed" };
        text += &format!(
            "| {name}, from {GOAL_LENGTH} bytes on, at most {goal:.2} | {least:.2} to {most:.2} | {verdict} |\n"
        );
    }
    text
}

fn benchmark(arguments: &[String]) -> Result<(), String> {
    let words: Vec<&str> = arguments.iter().map(String::as_str).collect();
    let rounds = match words[..] {
        [] => ROUNDS,
        ["--rounds", n] => parse_rounds(n)?,
        _ => return Err("usage: open_whole [--rounds N]".to_string()),
    };
    let mut rows = Vec::new();
    for variant in 0..VARIANTS.len() {
        for header in HEADERS {
            for length in LENGTHS {
                let mut jobs = jobs(variant, header, length);
                compare(&mut jobs)?;
                rows.push(Row {
                    variant,
                    header,
                    length,
                    times: measure(&mut jobs, rounds),
                });
            }
        }
    }
    if cfg!(debug_assertions) {
        println!("A debug build: these numbers say nothing about speed.\n");
    }
    println!("Nanoseconds a packet, median of {rounds} rounds, and the median of their ratios.");
    println!("What is opened is equal.\n");
    print!("{}", table(&rows));
    println!("\nThe goals: the time of `schwaemm_open_whole` in that of `schwaemm_open`.\n");
    print!("{}", goals(&rows));
    Ok(())
}

fn main() -> ExitCode {
    let arguments: Vec<String> = std::env::args().skip(1).collect();
    match benchmark(&arguments) {
        Ok(()) => ExitCode::SUCCESS,
        Err(message) => {
            eprintln!("{message}");
            ExitCode::FAILURE
        }
    }
}
