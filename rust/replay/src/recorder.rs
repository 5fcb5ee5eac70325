//! Calls on the Rust's engine, each kept with what it answered. What the Rust
//! does not show is followed by document 01: the phase, and the steps of the
//! current message, by the formula over the lengths of header and data.

use tc_aead_cipher::AeadCipher;
use tc_sparkle_aead::{SparkleEngine, SparkleVariant};

use crate::calls::{Answer, Call, PANICKED, Start, VARIANTS, ask, no};
use crate::random::Random;

/// A message's phase, without its direction.
#[derive(Clone, Copy, Debug, PartialEq, Eq)]
pub enum Phase {
    Uninitialized,
    Init,
    Aad,
    Data,
    Final,
}

/// A call and all that came of it.
pub struct Played {
    pub call: Call,
    /// The phase with its direction before the call, a place in
    /// `counts::PLACES`.
    pub place: usize,
    /// The answer that the port has to give.
    pub answer: Answer,
    /// The Rust's own answer: another one at a listed difference alone.
    pub original: Answer,
    /// The whole output after the call.
    pub output: Vec<u8>,
    /// The tag that can be read after the call.
    pub tag: Option<Vec<u8>>,
    /// The steps of the current message after the call, by document 01.
    pub steps: u64,
}

/// A list of calls on a new engine.
pub struct List {
    pub variant: SparkleVariant,
    pub calls: Vec<Played>,
}

/// The engine, what is known of it, and the lists so far.
pub struct Recorder {
    pub random: Random,
    pub variant: SparkleVariant,
    pub phase: Phase,
    pub opening: bool,
    /// The last start that was taken, and the header and the data since.
    pub start: Option<Start>,
    pub header: Vec<u8>,
    pub data: usize,
    engine: SparkleEngine,
    initial: Phase,
    ended: u64,
    lists: Vec<List>,
}

/// A variant's slim and big steps, which the Rust keeps to itself.
fn slim_and_big(variant: SparkleVariant) -> (usize, usize) {
    match variant {
        SparkleVariant::Schwaemm128_128 => (7, 10),
        SparkleVariant::Schwaemm256_128 | SparkleVariant::Schwaemm192_192 => (7, 11),
        SparkleVariant::Schwaemm256_256 => (8, 12),
    }
}

impl Recorder {
    pub fn new(seed: u64) -> Self {
        Recorder {
            random: Random(seed),
            variant: VARIANTS[0],
            phase: Phase::Uninitialized,
            opening: false,
            start: None,
            header: Vec::new(),
            data: 0,
            engine: SparkleEngine::new(VARIANTS[0]),
            initial: Phase::Uninitialized,
            ended: 0,
            lists: Vec::new(),
        }
    }

    /// A new engine, and a new list for what it is asked.
    pub fn list(&mut self, variant: SparkleVariant) {
        self.variant = variant;
        self.engine = SparkleEngine::new(variant);
        self.phase = Phase::Uninitialized;
        self.initial = Phase::Uninitialized;
        self.opening = false;
        self.start = None;
        self.header.clear();
        self.data = 0;
        self.lists.push(List {
            variant,
            calls: Vec::new(),
        });
    }

    /// The lists so far, which are forgotten here.
    pub fn take(&mut self) -> Vec<List> {
        std::mem::take(&mut self.lists)
    }

    pub fn rate(&self) -> usize {
        self.variant.nonce_bytes()
    }

    pub fn tag(&self) -> usize {
        self.variant.tag_bytes()
    }

    /// Makes a call and keeps it.
    pub fn call(&mut self, call: Call) -> &Played {
        let (original, output) = ask(&mut self.engine, &call);
        let (answer, output) = if self.by_document(&call) {
            (self.end_by_document(original), call.output().to_vec())
        } else {
            (original, output)
        };
        let place = self.place();
        self.follow(&call, answer);
        let played = Played {
            place,
            answer,
            original,
            output,
            tag: self.engine.mac().map(<[u8]>::to_vec),
            steps: self.steps() as u64,
            call,
        };
        let list = self.lists.last_mut().expect("a list has begun");
        list.calls.push(played);
        list.calls.last().unwrap()
    }

    /// Whether the call is one where port and Rust are known to differ: an end
    /// in opening Aad (docs/DIFFERENCES.md).
    fn by_document(&self, call: &Call) -> bool {
        self.opening && self.phase == Phase::Aad && matches!(call, Call::End { .. })
    }

    /// Document 01's answer to an end in opening Aad. The Rust has to have
    /// answered as docs/DIFFERENCES.md says; its engine is made again without
    /// that call.
    fn end_by_document(&mut self, original: Answer) -> Answer {
        let (tag, held) = (self.tag(), (self.header.len() - 1) % self.rate() + 1);
        let listed = if held < tag {
            no(5, tag, held)
        } else {
            no(PANICKED, 0, 0)
        };
        assert_eq!(original, listed, "an end in opening Aad, {held} bytes held");
        self.engine = SparkleEngine::new(self.variant);
        for earlier in &self.lists.last().expect("a list has begun").calls {
            if earlier.answer == earlier.original {
                ask(&mut self.engine, &earlier.call);
            }
        }
        no(5, tag, 0)
    }

    /// Which of `counts::PLACES` the engine is in.
    fn place(&self) -> usize {
        match (self.phase, self.opening) {
            (Phase::Uninitialized, _) => 0,
            (Phase::Init, opening) => 1 + usize::from(opening),
            (Phase::Aad, opening) => 3 + usize::from(opening),
            (Phase::Data, opening) => 5 + usize::from(opening),
            (Phase::Final, opening) => 7 + usize::from(opening),
        }
    }

    /// Goes to the phase after a call, and keeps what a start, a header and
    /// data bring.
    fn follow(&mut self, call: &Call, answer: Answer) {
        match (call, answer.code) {
            (Call::Init(start), 0) => {
                self.opening = start.opening;
                self.initial = if start.header.is_empty() {
                    Phase::Init
                } else {
                    Phase::Aad
                };
                self.start = Some(start.clone());
                self.begin();
            }
            (Call::Init(_), _) => {
                self.phase = Phase::Uninitialized;
                self.start = None;
                self.header.clear();
                self.data = 0;
            }
            (Call::Aad { input }, 0) if !input.is_empty() => {
                self.header.extend(input);
                self.phase = Phase::Aad;
            }
            (Call::Data { input, .. }, 0) => {
                self.data += input.len();
                self.phase = Phase::Data;
            }
            (Call::End { .. }, 0 | 6) => {
                let tag = if self.opening { self.tag() } else { 0 };
                self.ended = (self.begun() + self.whole(self.data - tag)) as u64;
                self.phase = Phase::Final;
            }
            (Call::Reset, _) => self.follow_reset(),
            _ => {}
        }
    }

    /// A reset: sealing in Data or Final ends in Final, with the steps after
    /// init; the others go back to the point after init.
    fn follow_reset(&mut self) {
        match (self.phase, self.opening) {
            (Phase::Uninitialized, _) => {}
            (Phase::Data | Phase::Final, false) => {
                self.begin();
                self.ended = self.steps() as u64;
                self.phase = Phase::Final;
            }
            _ => self.begin(),
        }
    }

    /// Back to the point after init.
    fn begin(&mut self) {
        let start = self.start.as_ref().expect("a start was taken");
        self.header.clone_from(&start.header);
        self.data = 0;
        self.phase = self.initial;
    }

    /// The steps of a whole header or message of n bytes.
    fn whole(&self, n: usize) -> usize {
        let (slim, big) = slim_and_big(self.variant);
        if n == 0 {
            0
        } else {
            (n.div_ceil(self.rate()) - 1) * slim + big
        }
    }

    /// The steps of n bytes of a header or message while its last block is
    /// held back.
    fn so_far(&self, n: usize) -> usize {
        n.saturating_sub(1) / self.rate() * slim_and_big(self.variant).0
    }

    /// The steps of a start and a whole header.
    fn begun(&self) -> usize {
        slim_and_big(self.variant).1 + self.whole(self.header.len())
    }

    /// The steps of the current message: big, plus for a header, and again for
    /// a message, (blocks - 1) x slim + big where it is not empty, added as the
    /// permutations run.
    fn steps(&self) -> usize {
        let tag = if self.opening { self.tag() } else { 0 };
        let big = slim_and_big(self.variant).1;
        match self.phase {
            Phase::Uninitialized => 0,
            Phase::Init => big,
            Phase::Aad => big + self.so_far(self.header.len()),
            Phase::Data => self.begun() + self.so_far(self.data.saturating_sub(tag)),
            Phase::Final => self.ended as usize,
        }
    }

    /// An output of `room` bytes before a call: random bytes, none of them 0.
    fn output(&mut self, room: usize) -> Vec<u8> {
        (0..room).map(|_| self.random.fill()).collect()
    }

    pub fn init(&mut self, start: &Start) -> Answer {
        self.call(Call::Init(start.clone())).answer
    }

    pub fn aad(&mut self, input: &[u8]) -> Answer {
        let input = input.to_vec();
        self.call(Call::Aad { input }).answer
    }

    /// A data call with `room` bytes of output, and what it wrote.
    pub fn data(&mut self, input: &[u8], room: usize) -> (Answer, Vec<u8>) {
        let (input, output) = (input.to_vec(), self.output(room));
        written(self.call(Call::Data { input, output }))
    }

    /// A data call with the output that it needs.
    pub fn data_exact(&mut self, input: &[u8]) -> (Answer, Vec<u8>) {
        self.data(input, self.needed(input.len()))
    }

    /// What a data call of n bytes needs; the question is not kept.
    pub fn needed(&self, n: usize) -> usize {
        self.engine.update_output_len(n).unwrap()
    }

    /// What an end needs; the question is not kept.
    pub fn needed_at_end(&self) -> usize {
        self.engine.output_len(0).unwrap()
    }

    /// An end with `room` bytes of output, and what it wrote.
    pub fn end(&mut self, room: usize) -> (Answer, Vec<u8>) {
        let output = self.output(room);
        written(self.call(Call::End { output }))
    }

    /// An end with the output that it needs.
    pub fn end_exact(&mut self) -> (Answer, Vec<u8>) {
        self.end(self.needed_at_end())
    }

    pub fn reset(&mut self) {
        self.call(Call::Reset);
    }

    pub fn mac(&mut self) {
        self.call(Call::Mac);
    }

    /// Both queries.
    pub fn lengths(&mut self, number: usize) {
        self.call(Call::UpdateOutputLen(number));
        self.call(Call::OutputLen(number));
    }
}

/// Plays the calls on a new engine of the Rust's.
pub fn play<'a>(variant: SparkleVariant, calls: impl IntoIterator<Item = &'a Call>) -> List {
    let mut r = Recorder::new(0);
    r.list(variant);
    for call in calls {
        r.call(call.clone());
    }
    r.take().remove(0)
}

/// A call's answer, and what it wrote.
fn written(played: &Played) -> (Answer, Vec<u8>) {
    let n = played.answer.written();
    (played.answer, played.output[..n].to_vec())
}
