//! A call with all that it brings, and what the Rust's engine answers to it,
//! by document 01's numbers.

use std::cell::Cell;
use std::fmt;
use std::panic::{AssertUnwindSafe, catch_unwind};
use std::sync::Once;

use tc_aead_cipher::{AeadCipher, AeadCipherInit, AeadError, AeadInitError, AeadParamsRef};
use tc_block_cipher::CipherDirection;
use tc_sparkle_aead::{SparkleEngine, SparkleVariant};

/// The variants in document 01's order.
pub const VARIANTS: [SparkleVariant; 4] = [
    SparkleVariant::Schwaemm128_128,
    SparkleVariant::Schwaemm256_128,
    SparkleVariant::Schwaemm192_192,
    SparkleVariant::Schwaemm256_256,
];

/// Document 01's number of a variant.
pub fn variant_number(variant: SparkleVariant) -> u8 {
    1 + VARIANTS.iter().position(|v| *v == variant).unwrap() as u8
}

/// The number that stands for a panic of the Rust; none of document 01's.
pub const PANICKED: u8 = 255;

/// An answer by document 01's numbers.
#[derive(Clone, Copy, Debug, PartialEq, Eq)]
pub struct Answer {
    /// 0, or the number of the refusal.
    pub code: u8,
    /// The count and 0, or the refusal's values.
    pub values: [usize; 2],
}

/// The work is done.
pub fn ok(count: usize) -> Answer {
    no(0, count, 0)
}

/// A refusal.
pub fn no(code: u8, first: usize, second: usize) -> Answer {
    Answer {
        code,
        values: [first, second],
    }
}

impl Answer {
    /// How many bytes a data call or an end has written.
    pub fn written(self) -> usize {
        if self.code == 0 { self.values[0] } else { 0 }
    }
}

/// What init is called with.
#[derive(Clone, Debug, PartialEq, Eq)]
pub struct Start {
    pub opening: bool,
    pub key: Vec<u8>,
    pub nonce: Vec<u8>,
    pub size: usize,
    pub header: Vec<u8>,
}

/// A call. An output is what it holds before the call.
#[derive(Clone, Debug, PartialEq, Eq)]
pub enum Call {
    Init(Start),
    Aad { input: Vec<u8> },
    Data { input: Vec<u8>, output: Vec<u8> },
    End { output: Vec<u8> },
    Reset,
    Mac,
    UpdateOutputLen(usize),
    OutputLen(usize),
}

impl Call {
    /// What the output holds before the call; empty where there is none.
    pub fn output(&self) -> &[u8] {
        match self {
            Call::Data { output, .. } | Call::End { output } => output,
            _ => &[],
        }
    }
}

/// Bytes in hexadecimal, two digits a byte; `-` for none.
struct Hex<'a>(&'a [u8]);

impl fmt::Display for Hex<'_> {
    fn fmt(&self, f: &mut fmt::Formatter) -> fmt::Result {
        if self.0.is_empty() {
            return f.write_str("-");
        }
        self.0.iter().try_for_each(|byte| write!(f, "{byte:02x}"))
    }
}

/// The call as a form of document 02's call lists (2026-01).
impl fmt::Display for Call {
    fn fmt(&self, f: &mut fmt::Formatter) -> fmt::Result {
        match self {
            Call::Init(s) => {
                let way = if s.opening { "open" } else { "seal" };
                let (key, nonce, header) = (Hex(&s.key), Hex(&s.nonce), Hex(&s.header));
                let size = s.size;
                write!(
                    f,
                    "(init {way} (key {key}) (nonce {nonce}) (tag {size}) (header {header}))"
                )
            }
            Call::Aad { input } => write!(f, "(aad {})", Hex(input)),
            Call::Data { input, output } => write!(f, "(data {} {})", Hex(input), output.len()),
            Call::End { output } => write!(f, "(final {})", output.len()),
            Call::Reset => f.write_str("(reset)"),
            Call::Mac => f.write_str("(mac)"),
            Call::UpdateOutputLen(n) => write!(f, "(update {n})"),
            Call::OutputLen(n) => write!(f, "(output {n})"),
        }
    }
}

/// Document 01's number and values of an answer.
fn number_of(answer: Result<usize, AeadError>) -> Answer {
    match answer {
        Ok(count) => ok(count),
        Err(AeadError::OutputTooShort {
            required,
            available,
        }) => no(4, required, available),
        Err(AeadError::CiphertextTooShort { minimum, actual }) => no(5, minimum, actual),
        Err(AeadError::AuthenticationFailed) => no(6, 0, 0),
        Err(AeadError::InputTooLong) => no(7, 0, 0),
        Err(AeadError::NotInitialized) => no(8, 0, 0),
        Err(AeadError::AadAfterData) => no(9, 0, 0),
        Err(AeadError::AlreadyFinalized) => no(10, 0, 0),
        Err(other) => panic!("document 01 leaves out {other:?}"),
    }
}

/// Document 01's number and value of an init's answer.
fn start_number_of(answer: Result<(), AeadInitError>) -> Answer {
    match answer {
        Ok(()) => ok(0),
        Err(AeadInitError::InvalidKeyLength { actual }) => no(1, actual, 0),
        Err(AeadInitError::InvalidNonceLength { actual }) => no(2, actual, 0),
        Err(AeadInitError::InvalidMacSize { actual }) => no(3, actual, 0),
        Err(AeadInitError::NonceReuse) => no(11, 0, 0),
        Err(other) => panic!("document 01 leaves out {other:?}"),
    }
}

fn direction(opening: bool) -> CipherDirection {
    if opening {
        CipherDirection::Decrypt
    } else {
        CipherDirection::Encrypt
    }
}

fn init(engine: &mut SparkleEngine, start: &Start) -> Answer {
    let params = AeadParamsRef::new(&start.key, &start.nonce, start.size, &start.header);
    start_number_of(engine.init(direction(start.opening), &params))
}

/// Makes a call on the engine; `output` is the call's output and is changed.
fn make(engine: &mut SparkleEngine, call: &Call, output: &mut [u8]) -> Answer {
    match call {
        Call::Init(start) => init(engine, start),
        Call::Aad { input } => number_of(engine.process_aad_bytes(input).map(|()| 0)),
        Call::Data { input, .. } => number_of(engine.process_bytes(input, output)),
        Call::End { .. } => number_of(engine.do_final(output)),
        Call::Reset => {
            engine.reset();
            ok(0)
        }
        Call::Mac => ok(engine.mac().unwrap_or_default().len()),
        Call::UpdateOutputLen(n) => number_of(engine.update_output_len(*n)),
        Call::OutputLen(n) => number_of(engine.output_len(*n)),
    }
}

thread_local! {
    /// Whether a panic is caught and counted, and so needs no message.
    static CAUGHT: Cell<bool> = const { Cell::new(false) };
}

/// Makes a call on the engine, and answers with the whole output after it. A
/// panic is the answer [`PANICKED`]; the engine is of no use after it.
pub fn ask(engine: &mut SparkleEngine, call: &Call) -> (Answer, Vec<u8>) {
    static QUIET: Once = Once::new();
    QUIET.call_once(|| {
        let hook = std::panic::take_hook();
        std::panic::set_hook(Box::new(move |info| {
            if !CAUGHT.get() {
                hook(info);
            }
        }));
    });
    let mut output = call.output().to_vec();
    CAUGHT.set(true);
    let answer = catch_unwind(AssertUnwindSafe(|| make(engine, call, &mut output)));
    CAUGHT.set(false);
    (answer.unwrap_or(no(PANICKED, 0, 0)), output)
}

/// What the Rust's engine seals a message to.
pub fn sealed(variant: SparkleVariant, start: &Start, header: &[u8], message: &[u8]) -> Vec<u8> {
    let params = AeadParamsRef::new(&start.key, &start.nonce, start.size, &start.header);
    let mut engine = SparkleEngine::new(variant);
    engine.init(CipherDirection::Encrypt, &params).unwrap();
    engine.process_aad_bytes(header).unwrap();
    let mut out = vec![0; engine.output_len(message.len()).unwrap()];
    let n = engine.process_bytes(message, &mut out).unwrap();
    let rest = engine.do_final(&mut out[n..]).unwrap();
    assert_eq!(n + rest, out.len());
    out
}
