//! The calls that seal and open a packet at once, beside the Rust's init, one
//! data call and end on a new engine: `schwaemm_seal` and `schwaemm_open` answer
//! as these calls do, `schwaemm_open_whole` by document 02's request 2026-03.

use host::{Done, Packet};
use replay::calls::{Answer, Call, Start, VARIANTS, ask, no, ok, sealed, variant_number};
use replay::recorder::Recorder;
use tc_sparkle_aead::{SparkleEngine, SparkleVariant};

use crate::walks::{damage, length, room, wrong_length};

/// A packet to seal or open, with the output before the call.
pub struct Case {
    pub variant: SparkleVariant,
    pub start: Start,
    pub message: Vec<u8>,
    pub output: Vec<u8>,
}

impl Case {
    /// What the Rust answers, and its output: each call where the one before
    /// was not refused, the end behind what the data call wrote.
    fn original(&self) -> (Done, Vec<u8>) {
        let mut engine = SparkleEngine::new(self.variant);
        let (answer, _) = ask(&mut engine, &Call::Init(self.start.clone()));
        if answer.code != 0 {
            return (done(answer), self.output.clone());
        }
        let data = Call::Data {
            input: self.message.clone(),
            output: self.output.clone(),
        };
        let (answer, mut output) = ask(&mut engine, &data);
        if answer.code != 0 {
            return (done(answer), output);
        }
        let written = answer.written();
        let end = Call::End {
            output: output[written..].to_vec(),
        };
        let (answer, rest) = ask(&mut engine, &end);
        output[written..].copy_from_slice(&rest);
        let done = if answer.code == 0 {
            done(ok(written + answer.written()))
        } else {
            done(answer)
        };
        (done, output)
    }

    /// What an opening that is whole or not at all has to answer, and its
    /// output: 1, 2, 5 and 4 by the lengths, in this order, and behind them the
    /// Rust's answer. Its number is the Rust's in every case. A refusal leaves
    /// the output as it was.
    fn whole(&self) -> (Done, Vec<u8>) {
        let (original, written) = self.original();
        let (key, nonce) = (self.start.key.len(), self.start.nonce.len());
        let (packet, tag) = (self.message.len(), self.variant.tag_bytes());
        let answer = if key != self.variant.key_bytes() {
            no(1, key, 0)
        } else if nonce != self.variant.nonce_bytes() {
            no(2, nonce, 0)
        } else if packet < tag {
            no(5, tag, packet)
        } else if self.output.len() < packet - tag {
            no(4, packet - tag, self.output.len())
        } else if original.code == 0 {
            return (original, written);
        } else {
            no(6, 0, 0)
        };
        assert_eq!(original.code, answer.code, "the Rust's own number");
        (done(answer), self.output.clone())
    }

    /// What a function of the port answers, and its output.
    fn port(&self, call: fn(Packet, &mut [u8]) -> Done) -> (Done, Vec<u8>) {
        let packet = Packet {
            variant: variant_number(self.variant),
            key: &self.start.key,
            nonce: &self.start.nonce,
            header: &self.start.header,
            message: &self.message,
        };
        let mut output = self.output.clone();
        let done = call(packet, &mut output);
        (done, output)
    }

    /// Compares both sides; an error says what differs, otherwise the number
    /// that both answered comes back.
    pub fn compare(&self) -> Result<u8, String> {
        let call = if self.start.opening {
            host::open
        } else {
            host::seal
        };
        self.equal(self.port(call), self.original())
    }

    /// The same for an opening that is whole or not at all.
    pub fn compare_whole(&self) -> Result<u8, String> {
        assert!(self.start.opening);
        self.equal(self.port(host::open_whole), self.whole())
    }

    /// The number of two answers with their outputs, or what differs.
    fn equal(&self, port: (Done, Vec<u8>), expected: (Done, Vec<u8>)) -> Result<u8, String> {
        if port == expected {
            return Ok(port.0.code);
        }
        Err(format!(
            "(variant {}) {} {:02x?} into {} bytes\nport {port:02x?}\nexpected {expected:02x?}",
            variant_number(self.variant),
            Call::Init(self.start.clone()),
            self.message,
            self.output.len()
        ))
    }
}

/// What the port has to return for an answer.
fn done(answer: Answer) -> Done {
    let [first, second] = answer.values;
    Done {
        code: answer.code,
        first,
        second,
    }
}

/// A random packet, with lengths around the boundaries, damaged or not, into
/// an output that is too short or not. Of the recorder only the random numbers
/// and the variant's sizes are used.
pub fn random(r: &mut Recorder) -> Case {
    let variant = r.random.pick(&VARIANTS);
    let opening = r.random.once_in(2);
    random_of(r, variant, opening)
}

/// The same of a variant and a direction.
pub fn random_of(r: &mut Recorder, variant: SparkleVariant, opening: bool) -> Case {
    r.variant = variant;
    let (header, message) = (length(r), length(r));
    let mut start = Start {
        opening,
        key: r.random.bytes(variant.key_bytes()),
        nonce: r.random.bytes(variant.nonce_bytes()),
        size: variant.tag_bytes(),
        header: r.random.bytes(header),
    };
    let mut message = r.random.bytes(message);
    let mut needed = message.len() + variant.tag_bytes();
    if opening {
        needed = message.len();
        message = sealed(variant, &start, &[], &message);
        if r.random.once_in(2) {
            damage(r, &mut message);
        }
    }
    match r.random.below(20) {
        0 => {
            let n = wrong_length(r, start.key.len());
            start.key = r.random.bytes(n);
        }
        1 => {
            let n = wrong_length(r, start.nonce.len());
            start.nonce = r.random.bytes(n);
        }
        2 => {
            start.header.push(1);
        }
        _ => {}
    }
    let room = room(r, needed);
    Case {
        variant,
        start,
        message,
        output: (0..room).map(|_| r.random.fill()).collect(),
    }
}
