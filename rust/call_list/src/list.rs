//! The writer of call lists.

use crate::answer;
use crate::wiped::Wiped;

/// The bytes of a call before its three runs.
pub const HEAD: usize = 33;

/// Whether a message is sealed or opened.
#[derive(Clone, Copy, Debug, PartialEq, Eq)]
pub enum Direction {
    /// Sealing.
    Sealing,
    /// Opening.
    Opening,
}

/// A call list that is being written. It holds what the calls hold, keys too,
/// and is wiped when it is dropped.
pub struct List {
    bytes: Wiped,
    answers: usize,
}

impl List {
    /// A list without calls. `variant` is document 01's number, 1 to 4.
    pub fn new(variant: u8) -> Self {
        let mut bytes = Wiped::with_capacity(512);
        bytes.extend(&[variant]);
        Self { bytes, answers: 0 }
    }

    /// The list's bytes.
    pub fn bytes(&self) -> &[u8] {
        &self.bytes
    }

    /// How many bytes the answers of all calls take.
    pub fn answers_len(&self) -> usize {
        self.answers
    }

    /// A call of any kind: its number n, its three runs, and how many bytes
    /// follow the head of its answer.
    fn call(&mut self, kind: u8, n: u64, runs: [&[u8]; 3], answer: usize) {
        self.bytes.extend(&[kind]);
        self.bytes.extend(&n.to_le_bytes());
        for run in runs {
            self.bytes.extend(&(run.len() as u64).to_le_bytes());
        }
        for run in runs {
            self.bytes.extend(run);
        }
        self.answers += answer::HEAD + answer;
    }

    /// A start with a tag size, a key, a nonce and an initial header.
    pub fn init(&mut self, way: Direction, size: u64, key: &[u8], nonce: &[u8], header: &[u8]) {
        let kind = match way {
            Direction::Sealing => 1,
            Direction::Opening => 2,
        };
        self.call(kind, size, [key, nonce, header], 0);
    }

    /// Associated data.
    pub fn process_aad_bytes(&mut self, input: &[u8]) {
        self.call(3, 0, [input, &[], &[]], 0);
    }

    /// A data call; `output` is what the output holds before it.
    pub fn process_bytes(&mut self, input: &[u8], output: &[u8]) {
        self.call(4, 0, [input, &[], output], output.len());
    }

    /// The end; `output` is what the output holds before it.
    pub fn do_final(&mut self, output: &[u8]) {
        self.call(5, 0, [&[], &[], output], output.len());
    }

    /// A reset.
    pub fn reset(&mut self) {
        self.call(6, 0, [&[]; 3], 0);
    }

    /// The tag that can be read.
    pub fn mac(&mut self) {
        self.call(7, 0, [&[]; 3], 32);
    }

    /// How many bytes a data call of `n` bytes writes.
    pub fn update_output_len(&mut self, n: u64) {
        self.call(8, n, [&[]; 3], 0);
    }

    /// How many bytes data calls of `n` bytes and the end write together.
    pub fn output_len(&mut self, n: u64) {
        self.call(9, n, [&[]; 3], 0);
    }
}
