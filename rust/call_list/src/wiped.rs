//! Bytes that are overwritten with zeros when they are given back.

use std::ops::{Deref, DerefMut};
use std::sync::atomic::{Ordering, compiler_fence};

/// Overwrites `bytes` with zeros by writes that the compiler has to keep.
pub fn wipe(bytes: &mut [u8]) {
    for byte in bytes {
        // SAFETY: the pointer comes from a mutable reference.
        unsafe { std::ptr::write_volatile(byte, 0) };
    }
    compiler_fence(Ordering::SeqCst);
}

/// A growing run of bytes that is wiped when it is dropped, and whose old
/// place is wiped when it has to move.
#[derive(Default)]
pub struct Wiped(Vec<u8>);

impl Wiped {
    /// `n` zeros.
    pub fn zeros(n: usize) -> Self {
        Self(vec![0; n])
    }

    /// Nothing, with room for `n` bytes.
    pub fn with_capacity(n: usize) -> Self {
        Self(Vec::with_capacity(n))
    }

    /// The bytes, which are no longer wiped.
    pub fn into_vec(mut self) -> Vec<u8> {
        std::mem::take(&mut self.0)
    }

    /// Appends `bytes`.
    pub fn extend(&mut self, bytes: &[u8]) {
        let needed = self.0.len() + bytes.len();
        if needed > self.0.capacity() {
            let mut larger = Vec::with_capacity(needed.max(2 * self.0.capacity()));
            larger.extend_from_slice(&self.0);
            wipe(&mut self.0);
            self.0 = larger;
        }
        self.0.extend_from_slice(bytes);
    }
}

impl Deref for Wiped {
    type Target = [u8];

    fn deref(&self) -> &[u8] {
        &self.0
    }
}

impl DerefMut for Wiped {
    fn deref_mut(&mut self) -> &mut [u8] {
        &mut self.0
    }
}

impl Drop for Wiped {
    fn drop(&mut self) {
        wipe(&mut self.0);
    }
}

#[cfg(test)]
mod tests {
    use super::{Wiped, wipe};

    #[test]
    fn wiping_leaves_zeros() {
        let mut bytes = [7; 100];
        wipe(&mut bytes[10..90]);
        assert_eq!(bytes[10..90], [0; 80]);
        assert_eq!((bytes[9], bytes[90]), (7, 7));
    }

    #[test]
    fn growing_keeps_the_bytes() {
        let mut bytes = Wiped::with_capacity(3);
        let all: Vec<u8> = (0..=255).collect();
        all.chunks(7).for_each(|piece| bytes.extend(piece));
        assert_eq!(*bytes, *all);
        assert_eq!(bytes.into_vec(), all);
    }
}
