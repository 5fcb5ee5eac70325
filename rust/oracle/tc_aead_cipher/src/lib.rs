//! The crate `tc_aead_cipher` as far as docs/src holds it: its errors, its
//! parameters and its traits are the files of docs/src, unchanged. The three
//! parameter traits below are stand-ins for those that docs/src does not hold.
//! `rustfmt::skip` keeps a formatting run away from docs/src.

#[rustfmt::skip]
#[path = "../../../../docs/src/tc_aead_cipher/src/traits/aead_cipher.rs"]
mod aead_cipher;
#[rustfmt::skip]
#[path = "../../../../docs/src/tc_aead_cipher/src/errors/aead_error.rs"]
mod aead_error;
#[rustfmt::skip]
#[path = "../../../../docs/src/tc_aead_cipher/src/errors/aead_init_error.rs"]
mod aead_init_error;
#[rustfmt::skip]
#[path = "../../../../docs/src/tc_aead_cipher/src/params/aead_params_ref.rs"]
mod aead_params_ref;

pub use aead_cipher::{AeadCipher, AeadCipherInit};
pub use aead_error::AeadError;
pub use aead_init_error::AeadInitError;
pub use aead_params_ref::AeadParamsRef;

/// Stand-in: parameters that carry a nonce.
pub trait NonceParams {
    /// The nonce's bytes.
    fn nonce(&self) -> &[u8];
}

/// Stand-in: parameters that carry initial associated data.
pub trait InitialAadParams {
    /// The initial associated data's bytes.
    fn initial_aad(&self) -> &[u8];
}

/// Stand-in: parameters that carry a tag size.
pub trait MacSizeParams {
    /// The tag size in bytes.
    fn mac_size(&self) -> usize;
}
