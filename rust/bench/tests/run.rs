//! `sparkle_run` of `crates/sparkle_bench` beside the Rust original: from any
//! first step, in two parts, and on slices that begin with no state.

use replay::random::Random;
use tc_sparkle_aead::scalar::{sparkle_scalar_at, sparkle_scalar_from};

unsafe extern "C" {
    fn sparkle_run(words: *mut u32, len: usize, size: u8, first: u32, count: u32) -> u8;
}

/// Numbers of state words.
const SIZES: [u8; 3] = [8, 12, 16];

/// Calls `sparkle_run` on a slice.
fn run(words: &mut [u32], size: u8, first: u32, count: u32) -> u8 {
    // SAFETY: pointer and length are those of a slice that nothing else uses
    // meanwhile.
    unsafe { sparkle_run(words.as_mut_ptr(), words.len(), size, first, count) }
}

/// `n` pseudo-random words.
fn words(random: &mut Random, n: usize) -> Vec<u32> {
    (0..n).map(|_| random.word() as u32).collect()
}

/// First steps: the first ones, the last ones before 2^32, and others.
fn first_steps(random: &mut Random) -> Vec<u32> {
    (0..=40)
        .chain((0..=40).map(|before| u32::MAX - before))
        .chain(words(random, 400))
        .collect()
}

/// What the original makes of the state at the head of a slice.
fn original(start: &[u32], size: u8, first: u32, count: u32) -> Vec<u32> {
    let size = usize::from(size);
    let mut state = [0; 16];
    state[..size].copy_from_slice(&start[..size]);
    sparkle_scalar_from(&mut state, size, first, count);
    [&state[..size], &start[size..]].concat()
}

#[test]
fn from_any_first_step_as_the_original() {
    let mut random = Random(1);
    for first in first_steps(&mut random) {
        for size in SIZES {
            let count = random.below(24) as u32;
            let beyond = random.below(9);
            let start = words(&mut random, usize::from(size) + beyond);
            let mut slice = start.clone();
            assert_eq!(run(&mut slice, size, first, count), 0);
            let expected = original(&start, size, first, count);
            assert_eq!(slice, expected, "{size} words, {count} steps from {first}");
        }
    }
}

#[test]
fn a_run_in_two_is_the_run() {
    let mut random = Random(2);
    for first in first_steps(&mut random) {
        for size in SIZES {
            let (a, b) = (random.below(60) as u32, random.below(60) as u32);
            let start = words(&mut random, 16);
            let (mut whole, mut parts) = (start.clone(), start);
            run(&mut whole, size, first, a + b);
            run(&mut parts, size, first, a);
            run(&mut parts, size, first.wrapping_add(a), b);
            assert_eq!(whole, parts, "{size} words, {a} and {b} steps from {first}");
        }
    }
}

#[test]
fn many_steps_from_step_0_as_the_original() {
    let mut random = Random(3);
    for size in SIZES {
        let mut slice = words(&mut random, 16);
        let mut state: [u32; 16] = slice.as_slice().try_into().expect("16 words");
        assert_eq!(run(&mut slice, size, 0, 100_000), 0);
        sparkle_scalar_at(&mut state, usize::from(size), 100_000);
        assert_eq!(slice, state, "{size} words");
    }
}

#[test]
fn words_of_no_state_stay() {
    let mut random = Random(4);
    for size in 0..=u8::MAX {
        for len in 0..=20 {
            let start = words(&mut random, len);
            let mut slice = start.clone();
            let state = SIZES.contains(&size) && usize::from(size) <= len;
            let reply = run(&mut slice, size, random.word() as u32, 1);
            assert_eq!(reply, u8::from(!state), "size {size}, {len} words");
            assert_eq!(slice != start, state, "size {size}, {len} words");
        }
    }
}
