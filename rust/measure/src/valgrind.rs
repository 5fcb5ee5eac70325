//! Requests to valgrind (its headers valgrind.h, memcheck.h and callgrind.h):
//! four rotations that together do nothing and an exchange of a register with
//! itself, with a request's number and arguments in memory. Outside valgrind
//! they do nothing, and the answer is 0.

use std::arch::asm;
use std::ffi::CStr;

/// A tool's first request.
const fn tool(a: u8, b: u8) -> u64 {
    (a as u64) << 24 | (b as u64) << 16
}

const RUNNING_ON_VALGRIND: u64 = 0x1001;
const COUNT_ERRORS: u64 = 0x1201;
const MAKE_MEM_NOACCESS: u64 = tool(b'M', b'C');
const MAKE_MEM_UNDEFINED: u64 = tool(b'M', b'C') + 1;
const MAKE_MEM_DEFINED: u64 = tool(b'M', b'C') + 2;
const ZERO_STATS: u64 = tool(b'C', b'T') + 1;
const DUMP_STATS_AT: u64 = tool(b'C', b'T') + 3;

fn request(number: u64, first: u64, second: u64) -> u64 {
    let arguments = [number, first, second, 0, 0, 0];
    let mut answer = 0_u64;
    // SAFETY: outside valgrind nothing is changed; under valgrind the answer
    // comes in rdx, and the arguments are read.
    unsafe {
        asm!(
            "rol rdi, 3",
            "rol rdi, 13",
            "rol rdi, 61",
            "rol rdi, 51",
            "xchg rbx, rbx",
            in("rax") arguments.as_ptr(),
            inout("rdx") answer,
            options(nostack),
        );
    }
    answer
}

/// Whether this program runs under valgrind.
pub fn running() -> bool {
    request(RUNNING_ON_VALGRIND, 0, 0) != 0
}

/// How many errors valgrind has found so far.
pub fn errors() -> u64 {
    request(COUNT_ERRORS, 0, 0)
}

/// Shuts bytes off: memcheck reports whoever reads or writes them.
pub fn shut_off(bytes: &[u8]) {
    request(MAKE_MEM_NOACCESS, bytes.as_ptr() as u64, bytes.len() as u64);
}

/// Marks bytes as undefined: memcheck reports every jump and every address
/// that depends on them.
pub fn make_undefined(bytes: &[u8]) {
    request(
        MAKE_MEM_UNDEFINED,
        bytes.as_ptr() as u64,
        bytes.len() as u64,
    );
}

/// Marks bytes as defined.
pub fn make_defined(bytes: &[u8]) {
    request(MAKE_MEM_DEFINED, bytes.as_ptr() as u64, bytes.len() as u64);
}

/// Callgrind: counts from 0.
pub fn zero_counts() {
    request(ZERO_STATS, 0, 0);
}

/// Callgrind: writes the counts so far to a file of their own, under a name.
pub fn write_counts(name: &CStr) {
    request(DUMP_STATS_AT, name.as_ptr() as u64, 0);
}
