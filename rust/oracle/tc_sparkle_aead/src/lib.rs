//! The crate `tc_sparkle_aead`: engine.rs, sse2.rs and variant.rs of docs/src,
//! unchanged, on stand-ins for the crates that they import. Both forms of the
//! permutation are made reachable here for the comparison with the port.
//! It assumes an x86 processor. `rustfmt::skip` keeps a formatting run away
//! from docs/src.

// engine.rs nests an `if let` in an `if`.
#![allow(clippy::collapsible_if)]

#[rustfmt::skip]
#[path = "../../../../docs/src/tc_sparkle_aead/src/engine.rs"]
mod engine;
#[rustfmt::skip]
#[path = "../../../../docs/src/tc_sparkle_aead/src/sse2.rs"]
mod sse2;
#[rustfmt::skip]
#[path = "../../../../docs/src/tc_sparkle_aead/src/variant.rs"]
mod variant;

pub mod scalar;

pub use engine::SparkleEngine;
pub use variant::SparkleVariant;

use tc_runtime::intrinsics::x86::Sse2;

/// The SSE2 form of the permutation, sse2.rs. In a debug build it asserts an
/// even number of steps.
///
/// # Panics
///
/// Where the processor has no SSE2.
pub fn sparkle_opt16(state: &mut [u32; 16], steps: usize) {
    let token = Sse2::detect().expect("the processor has SSE2");
    sse2::sparkle_opt16(state, steps, token);
}
