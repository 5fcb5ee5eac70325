//! The archives' part of the stack, written over.

use std::mem::MaybeUninit;
use std::sync::atomic::{Ordering, compiler_fence};

/// Words of eight bytes that are written over: 8 KiB, where a packet takes up
/// to 2.4 KiB and a list of calls up to 7 KiB (docs/PERFORMANCE.md).
const WORDS: usize = 1024;

/// Writes zeros over the stack below the caller's, where a call of an archive
/// that has just returned kept its engine.
#[inline(never)]
pub(crate) fn wipe() {
    let mut words = MaybeUninit::<[u64; WORDS]>::uninit();
    let first = words.as_mut_ptr().cast::<u64>();
    for i in 0..WORDS {
        // SAFETY: the word is one of the array's.
        unsafe { first.add(i).write_volatile(0) };
    }
    compiler_fence(Ordering::SeqCst);
}
