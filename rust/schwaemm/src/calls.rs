//! Any calls, as one list.

use std::fmt;

use host::{Answers, List, Wiped};

use crate::{Error, Variant, stack};

pub use host::Direction;

/// What one call of a list answered.
#[derive(Clone, PartialEq, Eq)]
pub struct Answer {
    /// The bytes that a data call or an end wrote, a tag's bytes, or a query's
    /// length (0 for the other calls); or why the call was refused.
    pub outcome: Result<u64, Error>,
    /// The whole output of a data call or an end as the call left it; for `mac`
    /// 32 bytes, the tag and zeros behind it, or zeros; else empty. On an
    /// opening, those of a data call are not verified: see [`Answer::written`].
    pub bytes: Vec<u8>,
    /// Whether a tag can be read after the call.
    pub tag_readable: bool,
    /// The permutation steps of the current message after the call.
    pub steps: u64,
}

impl Answer {
    /// The bytes that a data call or an end wrote, or the tag that `mac` read;
    /// else none.
    ///
    /// On an opening the bytes of data calls are not verified until the end
    /// answers ok; where it does not, discard them.
    pub fn written(&self) -> &[u8] {
        let n = self.outcome.unwrap_or(0) as usize;
        self.bytes.get(..n).unwrap_or_default()
    }
}

/// A list of an engine's calls, which run one after the other on a new engine.
/// A refused call does not stop the list: the calls behind it run, on the
/// engine as the refusal left it (docs/01-scope.md).
///
/// On an opening the bytes of data calls are not verified until the end answers
/// ok; where it does not, discard them. [`Message`](crate::Message) does so by
/// itself.
///
/// ```
/// use schwaemm::{Calls, Direction, Error, Variant};
///
/// let mut calls = Calls::new(Variant::Schwaemm128_128);
/// calls.init(Direction::Sealing, &[0; 16], &[0; 16], 16, b"");
/// calls.process_aad_bytes(&[0; 20]);
/// calls.process_bytes(&[0; 33], 32);
/// calls.do_final(16);
/// calls.do_final(17);
/// let answers = calls.run();
/// let steps: Vec<u64> = answers.iter().map(|answer| answer.steps).collect();
/// assert_eq!(steps, [10, 17, 41, 41, 51]);
/// let short = Error::OutputTooShort { required: 17, available: 16 };
/// assert_eq!(answers[3].outcome, Err(short));
/// assert_eq!(answers[4].outcome, Ok(17));
/// assert!(answers[4].tag_readable);
/// ```
pub struct Calls {
    variant: Variant,
    list: List,
    len: usize,
}

impl Calls {
    /// No calls yet.
    pub fn new(variant: Variant) -> Self {
        Self {
            variant,
            list: List::new(variant.number()),
            len: 0,
        }
    }

    /// The variant of the engine.
    pub fn variant(&self) -> Variant {
        self.variant
    }

    /// How many calls there are.
    pub fn len(&self) -> usize {
        self.len
    }

    /// Whether there is no call.
    pub fn is_empty(&self) -> bool {
        self.len == 0
    }

    /// Starts a message under a key, a nonce, a tag size and an initial header.
    pub fn init(
        &mut self,
        direction: Direction,
        key: &[u8],
        nonce: &[u8],
        tag_size: u64,
        header: &[u8],
    ) {
        self.list.init(direction, tag_size, key, nonce, header);
        self.len += 1;
    }

    /// Adds associated data.
    pub fn process_aad_bytes(&mut self, input: &[u8]) {
        self.list.process_aad_bytes(input);
        self.len += 1;
    }

    /// Seals or opens `input` into an output of `room` bytes, zeros before the
    /// call.
    pub fn process_bytes(&mut self, input: &[u8], room: usize) {
        self.list.process_bytes(input, &vec![0; room]);
        self.len += 1;
    }

    /// Ends the message into an output of `room` bytes, zeros before the call.
    pub fn do_final(&mut self, room: usize) {
        self.list.do_final(&vec![0; room]);
        self.len += 1;
    }

    /// Drops the message; what may follow is in docs/01-scope.md.
    pub fn reset(&mut self) {
        self.list.reset();
        self.len += 1;
    }

    /// Reads the tag after a successful end.
    pub fn mac(&mut self) {
        self.list.mac();
        self.len += 1;
    }

    /// Asks how many bytes a data call of `n` bytes would write.
    pub fn update_output_len(&mut self, n: u64) {
        self.list.update_output_len(n);
        self.len += 1;
    }

    /// Asks how many bytes data calls of `n` bytes and the end would write
    /// together.
    pub fn output_len(&mut self, n: u64) {
        self.list.output_len(n);
        self.len += 1;
    }

    /// Runs the calls and gives the answers' bytes, which are wiped when they
    /// are dropped.
    ///
    /// # Panics
    ///
    /// Where the archive does not take the list that was written for it.
    pub(crate) fn run_raw(&self) -> Wiped {
        let mut answers = Wiped::zeros(self.list.answers_len());
        let ran = host::run(self.list.bytes(), &mut answers);
        stack::wipe();
        assert_eq!(ran.code, 0, "the archive stopped at {}", ran.place);
        answers
    }

    /// Runs the calls on a new engine. They stay as they are and can run again,
    /// with the same answers.
    ///
    /// # Panics
    ///
    /// Where the archive does not take the list that was written for it, or does
    /// not answer it as docs/HOST.md says.
    pub fn run(&self) -> Vec<Answer> {
        let raw = self.run_raw();
        let answers: Vec<Answer> = Answers(&raw).map(|a| answer(&a)).collect();
        assert_eq!(answers.len(), self.len, "one answer for each call");
        answers
    }
}

/// Why a call was refused, if it was.
pub(crate) fn outcome(answer: &host::Answer) -> Result<u64, Error> {
    match answer.code {
        0 => Ok(answer.first),
        code => Err(Error::new(
            code,
            answer.first as usize,
            answer.second as usize,
        )),
    }
}

/// An answer of its own, behind which the list's answers can be wiped.
fn answer(a: &host::Answer) -> Answer {
    Answer {
        outcome: outcome(a),
        bytes: a.bytes.to_vec(),
        tag_readable: a.readable != 0,
        steps: a.steps,
    }
}

impl fmt::Debug for Answer {
    /// Writes the bytes as their length, never themselves.
    fn fmt(&self, f: &mut fmt::Formatter<'_>) -> fmt::Result {
        f.debug_struct("Answer")
            .field("outcome", &self.outcome)
            .field("bytes", &self.bytes.len())
            .field("tag_readable", &self.tag_readable)
            .field("steps", &self.steps)
            .finish()
    }
}

impl fmt::Debug for Calls {
    /// Writes the variant and the number of calls, never their bytes.
    fn fmt(&self, f: &mut fmt::Formatter<'_>) -> fmt::Result {
        f.debug_struct("Calls")
            .field("variant", &self.variant)
            .field("len", &self.len)
            .finish_non_exhaustive()
    }
}
