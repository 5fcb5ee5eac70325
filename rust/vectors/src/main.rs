//! Prints vectors of the Rust's permutation, one a line: the form (`scalar` or
//! `groups`), the number of state words, the number of steps, and all 16 words
//! of the array after the call, also those beyond the state's, which stay as
//! they are. The `groups` lines follow the `scalar` line of the same 16 words.
//!
//! Then runs from other first steps, with state words, first step and number
//! of steps: `midway` is a run from step 0 that is picked up at the first
//! step, so the original runs all its steps at once; `from` starts at the first
//! step, at which the original does not (`sparkle_scalar_from`).
//! Last `part`, with state words, the number of the next step and how many
//! steps are left: the array after each part of a run from step 0.

use tc_sparkle_aead::scalar::{sparkle_scalar_at, sparkle_scalar_from};
use tc_sparkle_aead::sparkle_opt16;

/// Numbers of state words.
const SIZES: [usize; 3] = [8, 12, 16];

/// Numbers of steps: few, those of the four variants, and one past twice the
/// eight round constants.
const COUNTS: [usize; 9] = [0, 1, 2, 7, 8, 10, 11, 12, 17];

/// First steps and numbers of steps of the runs that are picked up midway.
const PICKED_UP: [(u32, u32); 5] = [(1, 6), (2, 8), (7, 5), (8, 9), (12, 5)];

/// State words, first step and number of steps of the runs far from step 0,
/// all of them on the second start array.
const FAR: [(usize, u32, u32); 5] = [
    (8, 0xffff_ffff, 2),
    (12, 0x1234_5678, 5),
    (12, 0xffff_fffd, 7),
    (16, 0x8000_0000, 4),
    (16, 0xffff_fffe, 3),
];

/// State words and number of steps of the runs in parts, and the most steps in
/// a part, all of them on the last start array.
const IN_PARTS: [(usize, usize, usize); 3] = [(8, 11, 1), (12, 17, 3), (16, 12, 5)];

/// The start arrays: all zeros, the word's place, all ones, and multiples of
/// 0x9e3779b9 modulo 2^32.
fn starts() -> [[u32; 16]; 4] {
    [
        [0; 16],
        std::array::from_fn(|i| i as u32),
        [0xffff_ffff; 16],
        std::array::from_fn(|i| (i as u32 + 1).wrapping_mul(0x9e37_79b9)),
    ]
}

/// The array after the four-group form. sse2.rs asserts an even number of
/// steps in a debug build, so there the scalar form stands in on odd numbers;
/// a release build always runs the SSE2 form itself.
fn groups(mut state: [u32; 16], steps: usize) -> [u32; 16] {
    if cfg!(debug_assertions) && steps & 1 == 1 {
        return scalar(state, 16, steps);
    }
    sparkle_opt16(&mut state, steps);
    state
}

/// The array after the scalar form.
fn scalar(mut state: [u32; 16], words: usize, steps: usize) -> [u32; 16] {
    sparkle_scalar_at(&mut state, words, steps);
    state
}

/// The words of an array as they are printed.
fn hex(state: [u32; 16]) -> String {
    state.map(|word| format!("{word:08x}")).join(" ")
}

/// Prints one vector.
fn print(form: &str, words: usize, steps: usize, state: [u32; 16]) {
    println!("{form} {words} {steps} {}", hex(state));
}

/// Prints the runs that are picked up midway.
fn print_midway() {
    for start in starts() {
        for words in SIZES {
            for (first, count) in PICKED_UP {
                let whole = scalar(start, words, (first + count) as usize);
                println!("midway {words} {first} {count} {}", hex(whole));
            }
        }
    }
}

/// Prints the runs far from step 0.
fn print_far() {
    for (words, first, count) in FAR {
        let mut state = starts()[1];
        sparkle_scalar_from(&mut state, words, first, count);
        println!("from {words} {first} {count} {}", hex(state));
    }
}

/// Prints the runs in parts.
fn print_parts() {
    for (words, count, most) in IN_PARTS {
        let mut next = 0;
        while next < count {
            next = count.min(next + most);
            let state = hex(scalar(starts()[3], words, next));
            println!("part {words} {next} {} {state}", count - next);
        }
    }
}

fn main() {
    for start in starts() {
        for words in SIZES {
            for steps in COUNTS {
                print("scalar", words, steps, scalar(start, words, steps));
                if words == 16 {
                    print("groups", words, steps, groups(start, steps));
                }
            }
        }
    }
    print_midway();
    print_far();
    print_parts();
}
