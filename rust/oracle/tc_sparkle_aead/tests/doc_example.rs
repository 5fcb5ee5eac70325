//! The example in the documentation of `SparkleEngine`, as a test: a message
//! is sealed and opened again.

use tc_aead_cipher::{AeadCipher, AeadCipherInit, AeadParamsRef};
use tc_block_cipher::CipherDirection;
use tc_sparkle_aead::{SparkleEngine, SparkleVariant};

#[test]
fn seals_and_opens() -> Result<(), Box<dyn std::error::Error>> {
    let (key, nonce) = ([0x42; 16], [0x24; 16]);
    let params = AeadParamsRef::new(&key, &nonce, 16, b"header");
    let plaintext = b"attack at dawn";
    let mut cipher = SparkleEngine::new(SparkleVariant::Schwaemm128_128);

    cipher.init(CipherDirection::Encrypt, &params)?;
    let mut sealed = vec![0; cipher.output_len(plaintext.len())?];
    let mut sealed_len = cipher.process_bytes(plaintext, &mut sealed)?;
    sealed_len += cipher.do_final(&mut sealed[sealed_len..])?;

    cipher.init(CipherDirection::Decrypt, &params)?;
    let mut opened = vec![0; cipher.output_len(sealed_len)?];
    let mut opened_len = cipher.process_bytes(&sealed[..sealed_len], &mut opened)?;
    opened_len += cipher.do_final(&mut opened[opened_len..])?;
    assert_eq!(&opened[..opened_len], plaintext);
    Ok(())
}
