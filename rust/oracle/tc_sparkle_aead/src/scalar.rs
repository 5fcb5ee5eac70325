//! The scalar form of the permutation. `sparkle_scalar`, `arx_box`, `ell` and
//! `RCON` are private in engine.rs; the build script cuts their text out of
//! that file, verbatim, and the functions below hand them on;
//! `sparkle_scalar_from` calls `sparkle_scalar` step by step.

include!(concat!(env!("OUT_DIR"), "/scalar.rs"));

/// The eight round constants, `RCON`.
pub const ROUND_CONSTANTS: [u32; 8] = RCON;

/// `sparkle_scalar` on the first `words` words of `state`: 8, 12 or 16.
pub fn sparkle_scalar_at(state: &mut [u32; 16], words: usize, steps: usize) {
    sparkle_scalar(state, words, steps);
}

/// `count` steps of `sparkle_scalar`, the first of them step `first`, whose
/// number wraps at 2^32. The original starts at step 0: step s is step 0 on a
/// state whose words 1 and 3 are first xored with the xor of the two steps'
/// constants.
pub fn sparkle_scalar_from(state: &mut [u32; 16], words: usize, first: u32, count: u32) {
    for done in 0..count {
        let step = first.wrapping_add(done);
        state[1] ^= RCON[0] ^ RCON[step as usize % 8];
        state[3] ^= step;
        sparkle_scalar(state, words, 1);
    }
}

/// `arx_box` on one branch, with the round constant `rc`.
pub fn arx_box_at(rc: u32, x: &mut u32, y: &mut u32) {
    arx_box(rc, x, y);
}

/// `ell` of one word.
pub fn ell_at(x: u32) -> u32 {
    ell(x)
}
