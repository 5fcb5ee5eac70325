//! Benchmark of the program `calls` (document 02, 2026-01) on files of 65,536
//! bytes, beside `schwaemm_run` on the same calls in bytes:
//!
//!     cargo run --release -p measure --bin calls
//!
//! Program and function take turns in each round, and a number is the median of
//! the rounds. The program's time runs from its start to its end; it reads a file
//! and prints to /dev/null. The first row is what starting it takes. What both
//! answer is compared first. It needs the program, which `rt run`
//! in crates/calls writes.

use std::fs::{File, remove_file, write};
use std::io::Error;
use std::path::PathBuf;
use std::process::{Command, ExitCode, Stdio};
use std::time::{Duration, Instant};

use call_text::files::of_each_call;
use call_text::program;
use call_text::reader::read;
use call_text::writer::sheet_of;

/// Rounds.
const ROUNDS: usize = 21;

/// How many of the long files are measured.
const FILES: usize = 4;

/// A file, and its calls in bytes.
struct Entry {
    name: &'static str,
    path: PathBuf,
    calls: usize,
    list: host::List,
    answers: Vec<u8>,
    program: Vec<Duration>,
    function: Vec<Duration>,
}

impl Entry {
    /// Writes the file and compares what program and function answer.
    fn new(name: &'static str, text: &str) -> Result<Self, String> {
        let calls = read(text.as_bytes()).map_err(|line| format!("{name}: line {line}"))?;
        let list = calls.list();
        let mut answers = vec![0; list.answers_len()];
        host::run(list.bytes(), &mut answers);
        if sheet_of(&calls, &answers) != Some(program::printed(text.as_bytes())) {
            return Err(format!("{name}: program and function differ"));
        }
        let file = format!("calls-{}-{}", std::process::id(), name.replace(' ', "-"));
        let path = std::env::temp_dir().join(file);
        write(&path, text).map_err(|e| format!("{}: {e}", path.display()))?;
        Ok(Self {
            name,
            path,
            calls: calls.calls.len(),
            list,
            answers,
            program: Vec::new(),
            function: Vec::new(),
        })
    }

    fn round(&mut self) -> Result<(), Error> {
        let mut program = Command::new(program::path());
        program.stdin(File::open(&self.path)?).stdout(Stdio::null());
        let start = Instant::now();
        let status = program.status()?;
        self.program.push(start.elapsed());
        assert!(status.success());
        let start = Instant::now();
        host::run(self.list.bytes(), &mut self.answers);
        self.function.push(start.elapsed());
        Ok(())
    }
}

impl Drop for Entry {
    fn drop(&mut self) {
        // a file that is left behind does no harm
        let _ = remove_file(&self.path);
    }
}

/// The median in milliseconds.
fn median(times: &[Duration]) -> f64 {
    let mut times = times.to_vec();
    times.sort();
    let (low, high) = (times[(times.len() - 1) / 2], times[times.len() / 2]);
    (low + high).as_secs_f64() * 500.0
}

fn benchmark() -> Result<(), String> {
    let mut entries = vec![Entry::new("the variant alone", "(variant 1)\n")?];
    for (name, text) in of_each_call().iter().take(FILES) {
        entries.push(Entry::new(name, text)?);
    }
    for _ in 0..ROUNDS {
        for entry in &mut entries {
            entry.round().map_err(|e| e.to_string())?;
        }
    }
    if cfg!(debug_assertions) {
        println!("A debug build: these numbers say nothing about speed.\n");
    }
    println!("Milliseconds, median of {ROUNDS} rounds. All answers are equal.\n");
    println!("| file of | calls | program | schwaemm_run | ratio |");
    println!("|---|---:|---:|---:|---:|");
    for entry in &entries {
        let (program, function) = (median(&entry.program), median(&entry.function));
        let (name, calls) = (entry.name, entry.calls);
        let ratio = match calls {
            0 => "-".to_string(),
            _ => format!("{:.0}", program / function),
        };
        println!("| {name} | {calls} | {program:.2} | {function:.3} | {ratio} |");
    }
    Ok(())
}

fn main() -> ExitCode {
    match benchmark() {
        Ok(()) => ExitCode::SUCCESS,
        Err(message) => {
            eprintln!("{message}");
            ExitCode::FAILURE
        }
    }
}
