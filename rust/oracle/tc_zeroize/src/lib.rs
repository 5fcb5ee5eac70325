//! A stand-in for the crate `tc_zeroize`, which docs/src does not hold.
//! It wipes the values that engine.rs wipes: bytes, words and the optional
//! tag. Wiping means the value held afterwards, so plain stores suffice.

/// A value that can be wiped.
pub trait Zeroize {
    /// Leaves zeros, or nothing, in place of the value.
    fn zeroize(&mut self);
}

impl Zeroize for [u8] {
    fn zeroize(&mut self) {
        self.fill(0);
    }
}

impl Zeroize for [u32] {
    fn zeroize(&mut self) {
        self.fill(0);
    }
}

impl<const N: usize> Zeroize for Option<[u8; N]> {
    fn zeroize(&mut self) {
        *self = None;
    }
}
