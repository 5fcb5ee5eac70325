//! All lists of a small alphabet of calls, up to a length.

use std::collections::HashMap;

use replay::calls::{Call, Start, VARIANTS, sealed};
use replay::random::Random;
use replay::recorder::{List, Recorder};
use tc_sparkle_aead::SparkleVariant;

/// A call whose lengths depend on the variant and on what was called before.
#[derive(Clone, Copy, Debug, PartialEq, Eq)]
pub enum Letter {
    /// Sealing under the first pair, without a header.
    Seal,
    /// Sealing under the second pair, with a header of one byte.
    SealOther,
    /// Opening under the first pair, without a header.
    Open,
    /// Opening under the first pair, with a header of a block.
    OpenHeader,
    /// Sealing with a key of one byte too few.
    WrongKey,
    /// Opening with a nonce of one byte too many.
    WrongNonce,
    /// Sealing with another tag size.
    WrongSize,
    /// A header call without bytes.
    NoHeader,
    /// A header call of one byte.
    Header,
    /// A header call of a block and a byte.
    LongHeader,
    /// A data call without bytes.
    NoData,
    /// A data call of one byte.
    Data,
    /// A data call of a block and a byte; for an opening, a whole packet of so
    /// long a message under what was loaded.
    Packet,
    /// The same into an output that is too short by one, where it can be.
    PacketShort,
    /// An end into the output that it needs.
    End,
    /// An end into an output that is too short by one, where it can be.
    EndShort,
    Reset,
    Mac,
    /// A query of a block.
    Update,
    /// A query of 2^64 - 1.
    UpdateMost,
    /// A query of a block.
    Output,
    /// A query of the largest number that a sealing takes while it holds
    /// nothing.
    OutputMost,
}

/// Every letter.
pub const WIDE: [Letter; 22] = [
    Letter::Seal,
    Letter::SealOther,
    Letter::Open,
    Letter::OpenHeader,
    Letter::WrongKey,
    Letter::WrongNonce,
    Letter::WrongSize,
    Letter::NoHeader,
    Letter::Header,
    Letter::LongHeader,
    Letter::NoData,
    Letter::Data,
    Letter::Packet,
    Letter::PacketShort,
    Letter::End,
    Letter::EndShort,
    Letter::Reset,
    Letter::Mac,
    Letter::Update,
    Letter::UpdateMost,
    Letter::Output,
    Letter::OutputMost,
];

/// The letters that lead on to other phases, for longer lists.
pub const NARROW: [Letter; 8] = [
    Letter::Seal,
    Letter::Open,
    Letter::WrongSize,
    Letter::Header,
    Letter::NoData,
    Letter::Packet,
    Letter::End,
    Letter::Reset,
];

/// What the calls of one variant bring.
struct Bytes {
    variant: SparkleVariant,
    first: Start,
    second: Start,
    bytes: Vec<u8>,
    packets: HashMap<Vec<u8>, Vec<u8>>,
}

/// Calls `judge` with each list of `length` letters, on each variant.
pub fn lists(
    letters: &[Letter],
    length: usize,
    r: &mut Recorder,
    judge: &mut dyn FnMut(&List) -> bool,
) -> bool {
    for variant in VARIANTS {
        let mut bytes = Bytes::new(variant);
        let mut word = vec![0; length];
        loop {
            r.list(variant);
            for letter in &word {
                bytes.call(r, letters[*letter]);
            }
            if !judge(&r.take()[0]) {
                return false;
            }
            let Some(at) = word.iter().rposition(|i| i + 1 < letters.len()) else {
                break;
            };
            word[at] += 1;
            word[at + 1..].fill(0);
        }
    }
    true
}

/// A recorder for lists of this kind.
pub fn recorder() -> Recorder {
    Recorder::new(0x5741_4c4b)
}

impl Bytes {
    fn new(variant: SparkleVariant) -> Self {
        let mut random = Random(u64::from(replay::calls::variant_number(variant)));
        let first = Start {
            opening: false,
            key: random.bytes(variant.key_bytes()),
            nonce: random.bytes(variant.nonce_bytes()),
            size: variant.tag_bytes(),
            header: Vec::new(),
        };
        let mut second = first.clone();
        second.nonce[0] ^= 1;
        second.header = random.bytes(1);
        Self {
            variant,
            first,
            second,
            bytes: random.bytes(2 * variant.nonce_bytes()),
            packets: HashMap::new(),
        }
    }

    /// A header, or data, of n bytes.
    fn header(&self, n: usize) -> Vec<u8> {
        self.bytes[..n].to_vec()
    }

    /// A whole packet for an opening under the first pair and this header; a
    /// message for a sealing.
    fn packet(&mut self, r: &Recorder) -> Vec<u8> {
        let message = &self.bytes[..self.variant.nonce_bytes() + 1];
        if !r.opening {
            return message.to_vec();
        }
        let (variant, first) = (self.variant, &self.first);
        self.packets
            .entry(r.header.clone())
            .or_insert_with(|| sealed(variant, first, &r.header, message))
            .clone()
    }

    /// What a start's letter starts with.
    fn start(&self, letter: Letter) -> Option<Start> {
        let mut start = self.first.clone();
        match letter {
            Letter::Seal => {}
            Letter::SealOther => start = self.second.clone(),
            Letter::Open => start.opening = true,
            Letter::OpenHeader => {
                start.opening = true;
                start.header = self.header(self.variant.nonce_bytes());
            }
            Letter::WrongKey => start.key.truncate(start.key.len() - 1),
            Letter::WrongNonce => {
                start.opening = true;
                start.nonce.push(1);
            }
            Letter::WrongSize => start.size -= 1,
            _ => return None,
        }
        Some(start)
    }

    /// What a query's letter asks.
    fn query(&self, letter: Letter) -> Option<Call> {
        let (rate, tag) = (self.variant.nonce_bytes(), self.variant.tag_bytes());
        match letter {
            Letter::Update => Some(Call::UpdateOutputLen(rate)),
            Letter::UpdateMost => Some(Call::UpdateOutputLen(usize::MAX)),
            Letter::Output => Some(Call::OutputLen(rate)),
            Letter::OutputMost => Some(Call::OutputLen(usize::MAX - tag)),
            _ => None,
        }
    }

    /// Makes a letter's call.
    fn call(&mut self, r: &mut Recorder, letter: Letter) {
        if let Some(start) = self.start(letter) {
            r.init(&start);
            return;
        }
        if let Some(query) = self.query(letter) {
            r.call(query);
            return;
        }
        match letter {
            Letter::NoHeader => drop(r.aad(&[])),
            Letter::Header => drop(r.aad(&self.header(1))),
            Letter::LongHeader => drop(r.aad(&self.header(self.variant.nonce_bytes() + 1))),
            Letter::NoData => drop(r.data(&[], 1)),
            Letter::Data => drop(r.data(&self.header(1), r.needed(1) + 1)),
            Letter::Packet => drop(r.data_exact(&self.packet(r))),
            Letter::PacketShort => {
                let packet = self.packet(r);
                r.data(&packet, r.needed(packet.len()).saturating_sub(1));
            }
            Letter::End => drop(r.end_exact()),
            Letter::EndShort => drop(r.end(r.needed_at_end().saturating_sub(1))),
            Letter::Reset => r.reset(),
            _ => r.mac(),
        }
    }
}
