//! A stand-in for the crate `tc_constant_time`, which docs/src does not hold.
//! It has the two comparisons that engine.rs imports. Each reads all its
//! words or bytes, but nothing stops the compiler from ending early: it
//! serves for results, not for timing.

/// The result of a comparison, 1 or 0.
pub struct Choice(u8);

impl Choice {
    /// 1 for equal, 0 for different.
    pub fn unwrap_u8(self) -> u8 {
        self.0
    }
}

/// A comparison whose result is a `Choice`.
pub trait ConstantTimeEq {
    /// Compares `self` with `other`.
    fn ct_eq(&self, other: &Self) -> Choice;
}

impl<const N: usize> ConstantTimeEq for [u32; N] {
    fn ct_eq(&self, other: &Self) -> Choice {
        let difference = self.iter().zip(other).fold(0, |d, (a, b)| d | (a ^ b));
        Choice(u8::from(difference == 0))
    }
}

/// Whether `a` and `b` have the same length and the same bytes.
pub fn fixed_time_eq(a: &[u8], b: &[u8]) -> bool {
    a.len() == b.len() && a.iter().zip(b).fold(0, |d, (a, b)| d | (a ^ b)) == 0
}
