//! A stand-in for the crate `tc_block_cipher`, which docs/src does not hold.
//! It has the two names that the files of docs/src import: the direction of a
//! message and the parameter trait of its key.

/// Whether a message is sealed or opened.
#[derive(Clone, Copy, Debug, PartialEq, Eq)]
pub enum CipherDirection {
    /// Sealing.
    Encrypt,
    /// Opening.
    Decrypt,
}

/// Parameters that carry a key.
pub trait KeyParams {
    /// The key's bytes.
    fn key(&self) -> &[u8];
}
