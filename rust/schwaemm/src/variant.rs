//! The four variants and their sizes.

use std::fmt;

/// A variant of Schwaemm. The key has as many bytes as the tag, the nonce as
/// many as a block.
#[derive(Clone, Copy, Debug, PartialEq, Eq, Hash)]
pub enum Variant {
    /// Schwaemm128-128: key and tag of 16 bytes, nonce of 16.
    Schwaemm128_128,
    /// Schwaemm256-128: key and tag of 16 bytes, nonce of 32.
    Schwaemm256_128,
    /// Schwaemm192-192: key and tag of 24 bytes, nonce of 24.
    Schwaemm192_192,
    /// Schwaemm256-256: key and tag of 32 bytes, nonce of 32.
    Schwaemm256_256,
}

impl Variant {
    /// All variants, in the order of their numbers.
    pub const ALL: [Self; 4] = [
        Self::Schwaemm128_128,
        Self::Schwaemm256_128,
        Self::Schwaemm192_192,
        Self::Schwaemm256_256,
    ];

    /// The variant's number, 1 to 4.
    pub const fn number(self) -> u8 {
        match self {
            Self::Schwaemm128_128 => 1,
            Self::Schwaemm256_128 => 2,
            Self::Schwaemm192_192 => 3,
            Self::Schwaemm256_256 => 4,
        }
    }

    /// The variant with this number.
    pub fn from_number(number: u8) -> Option<Self> {
        Self::ALL.into_iter().find(|v| v.number() == number)
    }

    /// The bytes of a key.
    pub const fn key_bytes(self) -> usize {
        match self {
            Self::Schwaemm128_128 | Self::Schwaemm256_128 => 16,
            Self::Schwaemm192_192 => 24,
            Self::Schwaemm256_256 => 32,
        }
    }

    /// The bytes of a nonce, and of a block.
    pub const fn nonce_bytes(self) -> usize {
        match self {
            Self::Schwaemm128_128 => 16,
            Self::Schwaemm192_192 => 24,
            Self::Schwaemm256_128 | Self::Schwaemm256_256 => 32,
        }
    }

    /// The bytes of a tag.
    pub const fn tag_bytes(self) -> usize {
        self.key_bytes()
    }
}

impl fmt::Display for Variant {
    fn fmt(&self, f: &mut fmt::Formatter<'_>) -> fmt::Result {
        let (rate, key) = (8 * self.nonce_bytes(), 8 * self.key_bytes());
        write!(f, "Schwaemm{rate}-{key}")
    }
}
