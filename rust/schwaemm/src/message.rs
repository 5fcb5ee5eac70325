//! One message in pieces.

use std::fmt;

use host::{Answers, Direction, Wiped};

use crate::calls::outcome;
use crate::{Calls, Error, Variant};

/// A message that is sealed or opened in pieces: a start, then headers, then
/// data. The calls are only noted; [`Message::finish`] runs them as one list.
///
/// ```
/// use schwaemm::{Message, Variant};
///
/// let (key, nonce) = ([7; 16], [9; 16]);
/// let mut message = Message::sealing(Variant::Schwaemm128_128, &key, &nonce);
/// message.header(b"probe 12");
/// message.data(b"nitrate 4.1, ");
/// message.data(b"nitrate 4.0");
/// let sealed = message.finish()?;
/// assert_eq!(sealed.bytes.len(), 24 + 16);
/// assert!(sealed.bytes.ends_with(&sealed.tag));
/// assert_eq!(sealed.steps, 10 + 10 + 17);
///
/// let mut message = Message::opening(Variant::Schwaemm128_128, &key, &nonce);
/// message.header(b"probe ");
/// message.header(b"12");
/// message.data(&sealed.bytes);
/// assert_eq!(message.finish()?.bytes, b"nitrate 4.1, nitrate 4.0");
/// # Ok::<(), schwaemm::Error>(())
/// ```
pub struct Message {
    calls: Calls,
    data: usize,
}

/// A message that was sealed or opened.
#[derive(Clone, PartialEq, Eq)]
pub struct Finished {
    /// The ciphertext with the tag behind it, or the message.
    pub bytes: Vec<u8>,
    /// The tag that was made or verified.
    pub tag: Vec<u8>,
    /// The permutation steps of the message.
    pub steps: u64,
}

impl Message {
    /// A message to seal. The nonce must never be used again under the key.
    pub fn sealing(variant: Variant, key: &[u8], nonce: &[u8]) -> Self {
        Self::new(variant, Direction::Sealing, key, nonce)
    }

    /// A message to open: its data is the ciphertext with the tag behind it.
    pub fn opening(variant: Variant, key: &[u8], nonce: &[u8]) -> Self {
        Self::new(variant, Direction::Opening, key, nonce)
    }

    fn new(variant: Variant, direction: Direction, key: &[u8], nonce: &[u8]) -> Self {
        let mut calls = Calls::new(variant);
        calls.init(direction, key, nonce, variant.tag_bytes() as u64, b"");
        Self { calls, data: 0 }
    }

    /// Adds a piece of the header. A piece that is not empty, after a call of
    /// `data`, even an empty one, is refused with 9.
    pub fn header(&mut self, piece: &[u8]) {
        self.calls.process_aad_bytes(piece);
    }

    /// Adds a piece of the data. At most a block that was held back comes out
    /// beside the piece's own bytes, so that is the room.
    pub fn data(&mut self, piece: &[u8]) {
        let block = self.calls.variant().nonce_bytes();
        self.calls.process_bytes(piece, piece.len() + block);
        self.data += piece.len();
    }

    /// Ends the message and runs its calls on a new engine.
    ///
    /// # Errors
    ///
    /// The first refusal. Nothing of the message is handed out then: what the
    /// calls wrote is wiped.
    ///
    /// # Panics
    ///
    /// Where the archive does not take the list that was written for it, or does
    /// not answer it as docs/HOST.md says.
    pub fn finish(mut self) -> Result<Finished, Error> {
        let variant = self.calls.variant();
        let tag = variant.tag_bytes();
        self.calls.do_final(variant.nonce_bytes() + tag);
        self.calls.mac();
        let raw = self.calls.run_raw();
        let mut bytes = Wiped::with_capacity(self.data + tag);
        let (mut steps, mut tag_read) = (0, Vec::new());
        for (i, answer) in Answers(&raw).enumerate() {
            let count = outcome(&answer)? as usize;
            steps = answer.steps;
            if i + 1 < self.calls.len() {
                bytes.extend(&answer.bytes[..count]);
            } else {
                tag_read = answer.bytes[..count].to_vec();
            }
        }
        Ok(Finished {
            bytes: bytes.into_vec(),
            tag: tag_read,
            steps,
        })
    }
}

impl fmt::Debug for Message {
    /// Writes the variant and lengths, never the bytes.
    fn fmt(&self, f: &mut fmt::Formatter<'_>) -> fmt::Result {
        f.debug_struct("Message")
            .field("calls", &self.calls)
            .field("data", &self.data)
            .finish()
    }
}

impl fmt::Debug for Finished {
    /// Writes the lengths and the steps, never the bytes.
    fn fmt(&self, f: &mut fmt::Formatter<'_>) -> fmt::Result {
        f.debug_struct("Finished")
            .field("bytes", &self.bytes.len())
            .field("tag", &self.tag.len())
            .field("steps", &self.steps)
            .finish()
    }
}
