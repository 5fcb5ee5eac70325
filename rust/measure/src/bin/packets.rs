//! Benchmark of sealing and opening whole packets, the port beside the Rust and
//! a plain C:
//!
//!     cargo run --release -p measure --bin packets -- [--rounds N] [--csv FILE] [--svg FILE]
//!     cargo run --release -p measure --bin packets -- --plot CSV SVG
//!
//! All contenders take turns in each round, and a contender's number is the
//! median of its rounds. What they write is compared first. Buffers are written
//! once before the measurement and not cleared between calls; a call writes
//! over what the call before it left. The second form draws the plot of a file
//! that the first has written.

use std::hint::black_box;
use std::process::ExitCode;

use measure::contenders::{Contender, Job, Operation, VARIANTS};
use measure::rounds::{HEADERS, LENGTHS, ROUNDS, in_turn, parse_rounds};
use measure::table::{COLUMNS, Row, plot, table};

/// Measures one packet with all contenders in turn.
fn measure(job: &mut Job, length: usize, rounds: usize) -> Vec<Row> {
    let times = in_turn(Contender::ALL, rounds, |contender| {
        black_box(&mut *job).run(contender);
    });
    let rows = Contender::ALL.into_iter().zip(times);
    rows.map(|(contender, times)| Row {
        variant: job.variant,
        operation: job.operation,
        header: job.header.len(),
        length,
        contender,
        median: times.median(),
        fastest: times.fastest(),
    })
    .collect()
}

/// Every packet, on every variant.
fn measure_all(rounds: usize) -> Result<Vec<Row>, String> {
    let mut rows = Vec::new();
    for variant in 0..VARIANTS.len() {
        for operation in Operation::ALL {
            for header in HEADERS {
                for length in LENGTHS {
                    let mut job = Job::new(variant, operation, header, length);
                    job.compare()?;
                    rows.extend(measure(&mut job, length, rounds));
                }
            }
        }
    }
    Ok(rows)
}

fn write(path: &str, text: &str) -> Result<(), String> {
    std::fs::write(path, text).map_err(|e| format!("{path}: {e}"))
}

/// Draws the plot of a file of comma-separated values.
fn plot_file(csv: &str, svg: &str) -> Result<(), String> {
    let text = std::fs::read_to_string(csv).map_err(|e| format!("{csv}: {e}"))?;
    let rows: Option<Vec<Row>> = text.lines().skip(1).map(Row::parse).collect();
    let rows = rows.ok_or_else(|| format!("{csv}: a line that is no result"))?;
    write(svg, &plot(&rows)?)
}

fn benchmark(arguments: &[String]) -> Result<(), String> {
    let (mut rounds, mut csv, mut svg) = (ROUNDS, None, None);
    let words: Vec<&str> = arguments.iter().map(String::as_str).collect();
    if let ["--plot", csv, svg] = words[..] {
        return plot_file(csv, svg);
    }
    for pair in words.chunks(2) {
        match pair {
            ["--rounds", n] => rounds = parse_rounds(n)?,
            ["--csv", path] => csv = Some(*path),
            ["--svg", path] => svg = Some(*path),
            _ => return Err(
                "usage: packets [--rounds N] [--csv FILE] [--svg FILE] | packets --plot CSV SVG"
                    .to_string(),
            ),
        }
    }
    let rows = measure_all(rounds)?;
    if cfg!(debug_assertions) {
        println!("A debug build: these numbers say nothing about speed.\n");
    }
    println!("Median of {rounds} rounds. What the contenders write is equal.\n");
    println!("{}", table(&rows, |row| row.median));
    println!("The same, fastest round.\n");
    println!("{}", table(&rows, |row| row.fastest));
    if let Some(path) = csv {
        let lines: Vec<String> = rows.iter().map(Row::csv).collect();
        write(path, &format!("{COLUMNS}\n{}\n", lines.join("\n")))?;
    }
    if let Some(path) = svg {
        write(path, &plot(&rows)?)?;
    }
    Ok(())
}

fn main() -> ExitCode {
    let arguments: Vec<String> = std::env::args().skip(1).collect();
    match benchmark(&arguments) {
        Ok(()) => ExitCode::SUCCESS,
        Err(message) => {
            eprintln!("{message}");
            ExitCode::FAILURE
        }
    }
}
