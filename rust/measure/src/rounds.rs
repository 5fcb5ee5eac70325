//! Rounds of a benchmark of packets: all that is compared takes turns in each
//! round, so that a disturbance meets all of it alike.

use std::hint::black_box;
use std::time::{Duration, Instant};

/// Message and header lengths.
pub const LENGTHS: [usize; 5] = [16, 64, 1 << 10, 64 << 10, 1 << 20];
pub const HEADERS: [usize; 2] = [0, 32];

/// Rounds, where `--rounds` does not say.
pub const ROUNDS: usize = 21;

/// How long an entry runs in one round, where one call does not take longer.
const SLICE: Duration = Duration::from_millis(2);

/// The median of numbers, of which there is one at least.
fn median(mut numbers: Vec<f64>) -> f64 {
    numbers.sort_by(f64::total_cmp);
    let (low, high) = (numbers[(numbers.len() - 1) / 2], numbers[numbers.len() / 2]);
    (low + high) / 2.0
}

/// What an entry takes, nanoseconds a call, round by round; there is one round at
/// least.
#[derive(Clone, Debug)]
pub struct Times(Vec<f64>);

impl Times {
    pub fn median(&self) -> f64 {
        median(self.0.clone())
    }

    pub fn fastest(&self) -> f64 {
        self.0.iter().copied().fold(f64::INFINITY, f64::min)
    }

    /// The median of the rounds' ratios to another entry's times. The two sides of
    /// a round's ratio follow each other closely, so it does not matter where the
    /// machine is slower for some rounds.
    pub fn ratio_to(&self, other: &Self) -> f64 {
        median(self.0.iter().zip(&other.0).map(|(a, b)| a / b).collect())
    }
}

/// How long so many calls of an entry take.
fn run<T: Copy>(entry: T, calls: u32, call: &mut impl FnMut(T)) -> Duration {
    let entry = black_box(entry);
    let start = Instant::now();
    for _ in 0..calls {
        call(entry);
    }
    start.elapsed()
}

/// Warms an entry up: how many of its calls fill a round's slice. A disturbance
/// makes the number smaller, so the largest of three is taken.
fn warm_up<T: Copy>(entry: T, call: &mut impl FnMut(T)) -> u32 {
    let mut most = 1;
    for _ in 0..3 {
        let mut calls = most;
        let elapsed = loop {
            let elapsed = run(entry, calls, call);
            if elapsed >= SLICE {
                break elapsed;
            }
            calls *= 2;
        };
        let share = SLICE.as_secs_f64() / elapsed.as_secs_f64();
        most = most.max((f64::from(calls) * share) as u32);
    }
    most
}

/// Measures the entries in turn, in so many rounds; `call` makes one call of an
/// entry.
pub fn in_turn<T: Copy, const N: usize>(
    entries: [T; N],
    rounds: usize,
    mut call: impl FnMut(T),
) -> [Times; N] {
    let calls = entries.map(|entry| warm_up(entry, &mut call));
    let mut times = entries.map(|_| Vec::with_capacity(rounds));
    for _ in 0..rounds {
        for (i, entry) in entries.into_iter().enumerate() {
            let elapsed = run(entry, calls[i], &mut call);
            times[i].push(elapsed.as_nanos() as f64 / f64::from(calls[i]));
        }
    }
    times.map(Times)
}

/// The number of rounds that a word of the command line gives.
pub fn parse_rounds(word: &str) -> Result<usize, String> {
    match word.parse() {
        Ok(rounds) if rounds > 0 => Ok(rounds),
        _ => Err(format!("not a number of rounds: {word}")),
    }
}

#[cfg(test)]
mod tests {
    use super::{Times, in_turn};

    #[test]
    fn medians() {
        let of = |times: &[f64]| {
            let times = Times(times.to_vec());
            (times.median(), times.fastest())
        };
        assert_eq!(of(&[3.0]), (3.0, 3.0));
        assert_eq!(of(&[9.0, 1.0, 2.0]), (2.0, 1.0));
        assert_eq!(of(&[9.0, 1.0, 2.0, 4.0]), (3.0, 1.0));
    }

    /// A machine that is three times as slow in one round, in the midst of which
    /// it recovers, changes no more than that round's ratio.
    #[test]
    fn ratios_round_by_round() {
        let (one, two) = (Times(vec![2.0, 6.0, 2.0]), Times(vec![4.0, 4.0, 4.0]));
        assert_eq!(two.ratio_to(&one), 2.0);
        let (one, two) = (Times(vec![2.0, 6.0]), Times(vec![4.0, 12.0]));
        assert_eq!(two.ratio_to(&one), 2.0);
    }

    /// Behind the warming up, three calls of each, the entries run one behind the
    /// other in each round.
    #[test]
    fn entries_take_turns() {
        let mut ran = Vec::new();
        in_turn([0, 1, 2], 5, |entry| {
            ran.push(entry);
            std::thread::sleep(super::SLICE);
        });
        assert_eq!(ran[9..], [0, 1, 2].repeat(5));
    }
}
