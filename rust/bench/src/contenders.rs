//! The contenders: the Rust's permutation in its two forms and the port's in
//! its two forms. All have one signature and are called through a pointer, so
//! that the call costs the same for each and no call's size or number of steps
//! is known where it is made.

use tc_sparkle_aead::scalar::sparkle_scalar_at;
use tc_sparkle_aead::sparkle_opt16;

/// The array that holds a state; one of 8 or 12 words leaves the rest alone.
pub type State = [u32; 16];

/// A permutation of the first `words` words of `state`.
pub type Permutation = fn(state: &mut State, words: usize, steps: usize);

/// Who takes part.
#[derive(Clone, Copy, Debug, PartialEq, Eq)]
pub enum Contender {
    /// engine.rs, the size known at run time, as its engine calls it.
    RustRunTime,
    /// engine.rs, the size known at compile time.
    RustCompileTime,
    /// sse2.rs, for 16 words.
    RustSse2,
    /// The port's scalar form.
    RattleScalar,
    /// The port's four-group form, for 16 words.
    RattleGroups,
}

impl Contender {
    /// All contenders, in the order of the table.
    pub const ALL: [Self; 5] = [
        Self::RustRunTime,
        Self::RustCompileTime,
        Self::RustSse2,
        Self::RattleScalar,
        Self::RattleGroups,
    ];

    /// The contender's function for states of `words` words, if it has one.
    pub fn permutation(self, words: usize) -> Option<Permutation> {
        match (self, words) {
            (Self::RustRunTime, _) => Some(rust_run_time),
            (Self::RustCompileTime, 8) => Some(rust_8::permutation),
            (Self::RustCompileTime, 12) => Some(rust_12::permutation),
            (Self::RustCompileTime, 16) => Some(rust_16::permutation),
            (Self::RustSse2, 16) => Some(rust_sse2),
            (Self::RattleScalar, _) => Some(rattle_scalar),
            (Self::RattleGroups, 16) => Some(rattle_groups),
            _ => None,
        }
    }

    /// Whether the contender can run `steps` steps in this build: sse2.rs
    /// asserts an even number in a debug build.
    pub fn runs(self, steps: usize) -> bool {
        self != Self::RustSse2 || !cfg!(debug_assertions) || steps & 1 == 0
    }
}

#[inline(never)]
fn rust_run_time(state: &mut State, words: usize, steps: usize) {
    sparkle_scalar_at(state, words, steps);
}

#[inline(never)]
fn rust_sse2(state: &mut State, _words: usize, steps: usize) {
    sparkle_opt16(state, steps);
}

/// A copy of engine.rs's scalar permutation of its own for one size, so that
/// the compiler can make the code for that size.
macro_rules! rust_compile_time {
    ($module:ident, $words:literal) => {
        mod $module {
            include!(concat!(env!("OUT_DIR"), "/scalar.rs"));

            #[inline(never)]
            pub fn permutation(state: &mut super::State, _words: usize, steps: usize) {
                sparkle_scalar(state, $words, steps);
            }
        }
    };
}

rust_compile_time!(rust_8, 8);
rust_compile_time!(rust_12, 12);
rust_compile_time!(rust_16, 16);

unsafe extern "C" {
    /// The port's scalar form on the first `words` (8, 12 or 16) of 16 words.
    fn sparkle_bench_scalar(state: *mut u32, words: u32, steps: u32);
    /// The port's four-group form on 16 words.
    fn sparkle_bench_groups(state: *mut u32, steps: u32);
}

#[inline(never)]
fn rattle_scalar(state: &mut State, words: usize, steps: usize) {
    // SAFETY: the pointer is to 16 words that nothing else uses meanwhile.
    unsafe { sparkle_bench_scalar(state.as_mut_ptr(), words as u32, steps as u32) }
}

#[inline(never)]
fn rattle_groups(state: &mut State, _words: usize, steps: usize) {
    // SAFETY: the pointer is to 16 words that nothing else uses meanwhile.
    unsafe { sparkle_bench_groups(state.as_mut_ptr(), steps as u32) }
}
