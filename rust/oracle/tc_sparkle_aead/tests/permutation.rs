//! The SSE2 form of the permutation equals the scalar form on pseudo-random
//! 16-word states. sse2.rs asserts an even number of steps in a debug build,
//! so odd numbers are compared in a release build only. The first two rows of
//! docs/DIFFERENCES.md, section 1, are shown too.

use tc_sparkle_aead::scalar::{
    ROUND_CONSTANTS, arx_box_at, ell_at, sparkle_scalar_at, sparkle_scalar_from,
};
use tc_sparkle_aead::sparkle_opt16;

/// States compared for each number of steps.
const STATES: usize = 32;

/// A stream of pseudo-random words (SplitMix64, upper halves).
struct Words(u64);

impl Words {
    fn next(&mut self) -> u32 {
        self.0 = self.0.wrapping_add(0x9e37_79b9_7f4a_7c15);
        let mut z = self.0;
        z = (z ^ (z >> 30)).wrapping_mul(0xbf58_476d_1ce4_e5b9);
        z = (z ^ (z >> 27)).wrapping_mul(0x94d0_49bb_1331_11eb);
        ((z ^ (z >> 31)) >> 32) as u32
    }

    fn state(&mut self) -> [u32; 16] {
        std::array::from_fn(|_| self.next())
    }
}

/// Compares the two forms after `steps` steps.
fn compare(words: &mut Words, steps: usize) {
    for _ in 0..STATES {
        let start = words.state();
        let (mut scalar, mut groups) = (start, start);
        sparkle_scalar_at(&mut scalar, 16, steps);
        sparkle_opt16(&mut groups, steps);
        assert_eq!(scalar, groups, "{steps} steps from {start:08x?}");
    }
}

#[test]
fn forms_agree_on_even_counts() {
    let mut words = Words(1);
    for steps in (0..=64).step_by(2) {
        compare(&mut words, steps);
    }
}

#[cfg(not(debug_assertions))]
#[test]
fn forms_agree_on_odd_counts() {
    let mut words = Words(2);
    for steps in (1..=63).step_by(2) {
        compare(&mut words, steps);
    }
}

/// docs/DIFFERENCES.md, section 1, odd step counts: a debug build panics, on
/// the smallest one already.
#[cfg(debug_assertions)]
#[test]
#[should_panic(expected = "left == right")]
fn one_step_panics_in_debug() {
    sparkle_opt16(&mut [0; 16], 1);
}

/// docs/DIFFERENCES.md, section 1, number of state words: with none the Rust
/// still changes word 1.
#[test]
fn no_state_words_change_word_1() {
    let mut state = [0; 16];
    sparkle_scalar_at(&mut state, 0, 1);
    let mut expected = [0; 16];
    expected[1] = ROUND_CONSTANTS[0];
    assert_eq!(state, expected);
}

/// The same: below 20 words there is a result, with 20 the Rust panics.
#[test]
fn fewer_than_twenty_state_words_give_a_result() {
    for words in 0..20 {
        sparkle_scalar_at(&mut [0; 16], words, 1);
    }
}

#[test]
#[should_panic(expected = "index out of bounds")]
fn twenty_state_words_panic() {
    sparkle_scalar_at(&mut [0; 16], 20, 1);
}

/// The words beyond the state's stay as they are.
#[test]
fn words_beyond_the_state_stay() {
    let mut words = Words(3);
    for size in [8, 12] {
        for steps in 0..=17 {
            let start = words.state();
            let mut state = start;
            sparkle_scalar_at(&mut state, size, steps);
            assert_eq!(state[size..], start[size..], "{size} words, {steps} steps");
        }
    }
}

/// `sparkle_scalar_from` is the rest of a run of the original.
#[test]
fn steps_from_a_first_step_are_the_rest_of_a_run() {
    let mut words = Words(4);
    for size in [8, 12, 16] {
        for (first, count) in (0..=20).flat_map(|first| [(first, 0), (first, 1), (first, 17)]) {
            let start = words.state();
            let (mut midway, mut whole) = (start, start);
            sparkle_scalar_at(&mut midway, size, first);
            sparkle_scalar_from(&mut midway, size, first as u32, count);
            sparkle_scalar_at(&mut whole, size, first + count as usize);
            assert_eq!(midway, whole, "{size} words, {count} steps from {first}");
        }
    }
}

/// Document 01, "Worked by hand": the two values of `ell`.
#[test]
fn ell_as_worked_by_hand() {
    assert_eq!(ell_at(1), 65537);
    assert_eq!(ell_at(0x0001_0002), 0x0002_0003);
}

/// One step of an 8-word state of zeros, put together from the constants, the
/// box and `ell`.
#[test]
fn one_step_from_its_parts() {
    let mut x = [0; 4];
    let mut y = [ROUND_CONSTANTS[0], 0, 0, 0];
    for branch in 0..4 {
        arx_box_at(ROUND_CONSTANTS[branch], &mut x[branch], &mut y[branch]);
    }
    let (tx, ty) = (ell_at(x[0] ^ x[1]), ell_at(y[0] ^ y[1]));
    let expected = [
        x[1] ^ x[3] ^ ty,
        y[1] ^ y[3] ^ tx,
        x[0] ^ x[2] ^ ty,
        y[0] ^ y[2] ^ tx,
        x[0],
        y[0],
        x[1],
        y[1],
    ];

    let mut state = [0; 16];
    sparkle_scalar_at(&mut state, 8, 1);
    assert_eq!(state[..8], expected);
}
