//! The refusals of document 01.

use std::fmt;

/// Why a call was refused. [`Error::number`] is document 01's number.
#[derive(Clone, Copy, Debug, PartialEq, Eq, Hash)]
#[non_exhaustive]
pub enum Error {
    /// 1: the key has not as many bytes as the variant's keys.
    InvalidKeyLength {
        /// The key's bytes.
        actual: usize,
    },
    /// 2: the nonce has not as many bytes as the variant's nonces.
    InvalidNonceLength {
        /// The nonce's bytes.
        actual: usize,
    },
    /// 3: the tag size is not the variant's.
    InvalidMacSize {
        /// The tag size that was asked for.
        actual: usize,
    },
    /// 4: the output is too short.
    OutputTooShort {
        /// The bytes that are needed.
        required: usize,
        /// The bytes that are there.
        available: usize,
    },
    /// 5: what was to be opened is shorter than a tag.
    CiphertextTooShort {
        /// A tag's bytes.
        minimum: usize,
        /// The bytes that came.
        actual: usize,
    },
    /// 6: the tag is not that of key, nonce, header and message.
    AuthenticationFailed,
    /// 7: a length passes 2^64 - 1.
    InputTooLong,
    /// 8: no message has been started.
    NotInitialized,
    /// 9: a header that is not empty, after a data call.
    AadAfterData,
    /// 10: the message has ended.
    AlreadyFinalized,
    /// 11: sealing with the key and nonce that were loaded last.
    NonceReuse,
}

impl Error {
    /// Document 01's number, 1 to 11.
    pub const fn number(&self) -> u8 {
        match self {
            Self::InvalidKeyLength { .. } => 1,
            Self::InvalidNonceLength { .. } => 2,
            Self::InvalidMacSize { .. } => 3,
            Self::OutputTooShort { .. } => 4,
            Self::CiphertextTooShort { .. } => 5,
            Self::AuthenticationFailed => 6,
            Self::InputTooLong => 7,
            Self::NotInitialized => 8,
            Self::AadAfterData => 9,
            Self::AlreadyFinalized => 10,
            Self::NonceReuse => 11,
        }
    }

    /// The refusal with this number and these values.
    ///
    /// # Panics
    ///
    /// Where document 01 has no such number.
    pub(crate) fn new(number: u8, first: usize, second: usize) -> Self {
        match number {
            1 => Self::InvalidKeyLength { actual: first },
            2 => Self::InvalidNonceLength { actual: first },
            3 => Self::InvalidMacSize { actual: first },
            4 => Self::OutputTooShort {
                required: first,
                available: second,
            },
            5 => Self::CiphertextTooShort {
                minimum: first,
                actual: second,
            },
            6 => Self::AuthenticationFailed,
            7 => Self::InputTooLong,
            8 => Self::NotInitialized,
            9 => Self::AadAfterData,
            10 => Self::AlreadyFinalized,
            11 => Self::NonceReuse,
            _ => panic!("the archive answered {number}, which is no refusal of document 01"),
        }
    }
}

impl fmt::Display for Error {
    fn fmt(&self, f: &mut fmt::Formatter<'_>) -> fmt::Result {
        match self {
            Self::InvalidKeyLength { actual } => {
                write!(f, "the key has {actual} bytes, not the variant's number")
            }
            Self::InvalidNonceLength { actual } => {
                write!(f, "the nonce has {actual} bytes, not the variant's number")
            }
            Self::InvalidMacSize { actual } => {
                write!(f, "a tag of {actual} bytes is not the variant's")
            }
            Self::OutputTooShort {
                required,
                available,
            } => write!(
                f,
                "the output has {available} bytes where {required} are needed"
            ),
            Self::CiphertextTooShort { minimum, actual } => write!(
                f,
                "the ciphertext has {actual} bytes, fewer than a tag's {minimum}"
            ),
            Self::AuthenticationFailed => f.write_str("the tag is not the right one"),
            Self::InputTooLong => f.write_str("a length passes 2^64 - 1"),
            Self::NotInitialized => f.write_str("no message has been started"),
            Self::AadAfterData => f.write_str("a header cannot follow a data call"),
            Self::AlreadyFinalized => f.write_str("the message has ended"),
            Self::NonceReuse => f.write_str("key and nonce are those that were loaded last"),
        }
    }
}

impl std::error::Error for Error {}
