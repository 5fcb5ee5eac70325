//! The contenders: each seals or opens one packet on a new engine.

use host::{Direction, Done, Packet};
use tc_aead_cipher::{AeadCipher, AeadCipherInit, AeadParamsRef};
use tc_block_cipher::CipherDirection;
use tc_sparkle_aead::{SparkleEngine, SparkleVariant};

use crate::c;

/// The variants in document 01's order.
pub const VARIANTS: [SparkleVariant; 4] = [
    SparkleVariant::Schwaemm128_128,
    SparkleVariant::Schwaemm256_128,
    SparkleVariant::Schwaemm192_192,
    SparkleVariant::Schwaemm256_256,
];

/// Who takes part.
#[derive(Clone, Copy, Debug, PartialEq, Eq)]
pub enum Contender {
    /// The Rust original: init on a new engine, one data call, end.
    Rust,
    /// The plain C of c/schwaemm.c.
    C,
    /// The port: `schwaemm_seal` or `schwaemm_open`.
    Rattle,
    /// The port through the library for users: `seal_into` or `open_into`.
    RattleLibrary,
    /// The port: a list of init, one data call and end, written beforehand.
    RattleList,
    /// The port: `schwaemm_open_whole`, which only opens.
    RattleWhole,
}

impl Contender {
    /// Those that seal and open, in the order of the tables.
    pub const ALL: [Self; 5] = [
        Self::Rust,
        Self::C,
        Self::Rattle,
        Self::RattleLibrary,
        Self::RattleList,
    ];

    /// The original and the port, whose instructions and stack are looked at.
    pub fn original_and_port(operation: Operation) -> &'static [Self] {
        const ALL: [Contender; 5] = [
            Contender::Rust,
            Contender::Rattle,
            Contender::RattleLibrary,
            Contender::RattleList,
            Contender::RattleWhole,
        ];
        match operation {
            Operation::Seal => &ALL[..4],
            Operation::Open => &ALL,
        }
    }

    /// The contender's name in tables and files.
    pub fn name(self) -> &'static str {
        match self {
            Self::Rust => "Rust",
            Self::C => "C",
            Self::Rattle => "Rattle",
            Self::RattleLibrary => "Rattle library",
            Self::RattleList => "Rattle list",
            Self::RattleWhole => "Rattle whole",
        }
    }
}

/// What is done to a packet.
#[derive(Clone, Copy, Debug, PartialEq, Eq)]
pub enum Operation {
    Seal,
    Open,
}

impl Operation {
    pub const ALL: [Self; 2] = [Self::Seal, Self::Open];

    /// The operation's name in tables and files.
    pub fn name(self) -> &'static str {
        match self {
            Self::Seal => "seal",
            Self::Open => "open",
        }
    }
}

/// One packet to seal or open, with a buffer for what comes of it.
pub struct Job {
    /// The place of the variant in `VARIANTS`.
    pub variant: usize,
    pub operation: Operation,
    pub key: Vec<u8>,
    pub nonce: Vec<u8>,
    pub header: Vec<u8>,
    pub input: Vec<u8>,
    pub output: Vec<u8>,
    list: host::List,
    answers: Vec<u8>,
}

/// Bytes that look like nothing in particular, others for each seed.
fn bytes(n: usize, seed: u64) -> Vec<u8> {
    let mut state = seed;
    let next = || {
        state = state
            .wrapping_mul(0x5851_f42d_4c95_7f2d)
            .wrapping_add(0x1405_7b7e_f767_814f);
        (state >> 56) as u8
    };
    std::iter::repeat_with(next).take(n).collect()
}

impl Job {
    /// A message of `length` bytes behind a header; the buffer is written once
    /// here, so that its pages are there.
    pub fn new(variant: usize, operation: Operation, header: usize, length: usize) -> Self {
        let sizes = VARIANTS[variant];
        let (key, nonce) = (bytes(sizes.key_bytes(), 1), bytes(sizes.nonce_bytes(), 2));
        let header = bytes(header, 3);
        let mut input = bytes(length, 4);
        let mut output = vec![0xee; length + sizes.tag_bytes()];
        let params = AeadParamsRef::new(&key, &nonce, sizes.tag_bytes(), &header);
        if operation == Operation::Open {
            let mut packet = output.clone();
            run_rust(
                sizes,
                CipherDirection::Encrypt,
                &params,
                &input,
                &mut packet,
            );
            input = packet;
            output.truncate(length);
        }
        let mut list = host::List::new(variant as u8 + 1);
        let way = match operation {
            Operation::Seal => Direction::Sealing,
            Operation::Open => Direction::Opening,
        };
        list.init(way, sizes.tag_bytes() as u64, &key, &nonce, &header);
        list.process_bytes(&input, &output);
        list.do_final(&vec![0xee; sizes.nonce_bytes() + sizes.tag_bytes()]);
        let answers = vec![0xee; list.answers_len()];
        Self {
            variant,
            operation,
            key,
            nonce,
            header,
            input,
            output,
            list,
            answers,
        }
    }

    /// Seals or opens once.
    ///
    /// # Panics
    ///
    /// Where it is refused, or `RattleWhole` has a message to seal.
    pub fn run(&mut self, contender: Contender) {
        match contender {
            Contender::Rust => self.rust(),
            Contender::C => self.c(),
            Contender::Rattle => self.rattle(match self.operation {
                Operation::Seal => host::seal,
                Operation::Open => host::open,
            }),
            Contender::RattleLibrary => self.library(),
            Contender::RattleList => {
                let ran = host::run(self.list.bytes(), &mut self.answers);
                assert_eq!(ran.code, 0);
            }
            Contender::RattleWhole => self.rattle(host::open_whole),
        }
    }

    #[inline(never)]
    fn rust(&mut self) {
        let variant = VARIANTS[self.variant];
        let size = variant.tag_bytes();
        let params = AeadParamsRef::new(&self.key, &self.nonce, size, &self.header);
        let direction = match self.operation {
            Operation::Seal => CipherDirection::Encrypt,
            Operation::Open => CipherDirection::Decrypt,
        };
        run_rust(variant, direction, &params, &self.input, &mut self.output);
    }

    #[inline(never)]
    fn c(&mut self) {
        let packet = c::Packet {
            variant: self.variant,
            key: &self.key,
            nonce: &self.nonce,
            header: &self.header,
            input: &self.input,
        };
        match self.operation {
            Operation::Seal => c::seal(packet, &mut self.output),
            Operation::Open => assert!(c::open(packet, &mut self.output)),
        }
    }

    /// What the boundary's functions for a packet take: what they read, and the
    /// output.
    pub fn lend(&mut self) -> (Packet<'_>, &mut [u8]) {
        let packet = Packet {
            variant: self.variant as u8 + 1,
            key: &self.key,
            nonce: &self.nonce,
            header: &self.header,
            message: &self.input,
        };
        (packet, &mut self.output)
    }

    #[inline(never)]
    fn rattle(&mut self, call: fn(Packet, &mut [u8]) -> Done) {
        let (packet, output) = self.lend();
        let done = call(packet, output);
        assert_eq!((done.code, done.first), (0, self.output.len()));
    }

    #[inline(never)]
    fn library(&mut self) {
        let variant = schwaemm::Variant::ALL[self.variant];
        let call = match self.operation {
            Operation::Seal => schwaemm::seal_into,
            Operation::Open => schwaemm::open_into,
        };
        let written = call(
            variant,
            &self.key,
            &self.nonce,
            &self.header,
            &self.input,
            &mut self.output,
        );
        assert_eq!(written, Ok(self.output.len()));
    }

    /// What a contender writes.
    fn result(&mut self, contender: Contender) -> Vec<u8> {
        self.output.fill(0xee);
        self.run(contender);
        if contender != Contender::RattleList {
            return self.output.clone();
        }
        let mut written = Vec::new();
        for answer in host::Answers(&self.answers) {
            assert_eq!(answer.code, 0);
            written.extend(&answer.bytes[..answer.first as usize]);
        }
        written
    }

    /// Compares what the contenders write.
    pub fn compare(&mut self) -> Result<(), String> {
        let expected = self.result(Contender::Rust);
        for contender in Contender::ALL {
            if self.result(contender) != expected {
                let name = contender.name();
                let operation = self.operation.name();
                return Err(format!(
                    "{name} differs: variant {}, {operation}",
                    self.variant + 1
                ));
            }
        }
        Ok(())
    }
}

/// The Rust's init on a new engine, one data call and end.
fn run_rust(
    variant: SparkleVariant,
    direction: CipherDirection,
    params: &AeadParamsRef,
    input: &[u8],
    output: &mut [u8],
) {
    let mut engine = SparkleEngine::new(variant);
    engine.init(direction, params).expect("a start is taken");
    let n = engine.process_bytes(input, output).expect("room for data");
    engine.do_final(&mut output[n..]).expect("an end");
}
