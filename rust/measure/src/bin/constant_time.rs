//! Sealing and opening with contents that memcheck takes for undefined: it then
//! reports every jump and every address that depends on them. tools/constant-time
//! runs this program under it. Keys, nonces, headers, messages and packets are
//! undefined; lengths, the variant and the heads of a list are not. Where an opening
//! that is whole or not at all meets a wrong tag, the output is shut off: memcheck
//! reports whoever reads or writes a byte of it.
//!
//! Each line is a case: its name, how many reports are expected (an answer depends
//! on contents by design at so many places), and how many came.

use std::hint::black_box;
use std::ops::Range;
use std::process::ExitCode;

use host::{Direction, Done, List, Packet};
use measure::contenders::{Job, Operation, VARIANTS};
use measure::valgrind::{errors, make_defined, make_undefined, running, shut_off};

/// The places of an opened packet that depend on whether the tag is right, those of
/// one that is opened whole or not at all, those of a list that opens, and those of
/// a second start that depend on whether key and nonce are the last loaded ones.
const PACKET_OPENS: u64 = 1;
const WHOLE_OPENS: u64 = 1;
const LIST_OPENS: u64 = 1;
const SECOND_START: u64 = 1;

/// Runs a case, says how many reports came, and whether they may.
fn case(name: &str, expected: u64, f: impl FnOnce()) -> bool {
    let before = errors();
    f();
    let reports = errors() - before;
    println!("{name}: expected {expected}, reports {reports}");
    reports == expected
}

/// A jump that depends on a secret, which has to be reported.
#[inline(never)]
fn planted_jump(secret: &[u8]) {
    if black_box(secret)[3] > 7 {
        black_box(());
    }
}

/// An address that depends on a secret, which has to be reported.
#[inline(never)]
fn planted_address(secret: &[u8], table: &[u8; 256]) {
    black_box(black_box(table)[usize::from(black_box(secret)[3])]);
}

/// A write to bytes that are shut off, which has to be reported.
#[inline(never)]
fn planted_write(shut: &mut [u8]) {
    black_box(shut)[3] = 7;
}

/// The three controls: without their reports, silence says nothing.
fn controls() -> bool {
    let (secret, table, mut shut) = (vec![1_u8; 16], [2_u8; 256], vec![3_u8; 16]);
    make_undefined(&secret);
    shut_off(&shut);
    let jump = case("control, a planted jump", 1, || planted_jump(&secret));
    let address = case("control, a planted address", 1, || {
        planted_address(&secret, &table);
    });
    let write = case("control, a planted write", 1, || planted_write(&mut shut));
    jump && address && write
}

/// A function of the boundary for a packet, and how many reports it may have.
struct Function {
    name: &'static str,
    operation: Operation,
    call: fn(Packet, &mut [u8]) -> Done,
    expected: u64,
}

const SEAL: Function = Function {
    name: "seal",
    operation: Operation::Seal,
    call: host::seal,
    expected: 0,
};

const OPEN: Function = Function {
    name: "open",
    operation: Operation::Open,
    call: host::open,
    expected: PACKET_OPENS,
};

const OPEN_WHOLE: Function = Function {
    name: "open whole",
    operation: Operation::Open,
    call: host::open_whole,
    expected: WHOLE_OPENS,
};

/// What a packet's call meets.
#[derive(Clone, Copy, PartialEq)]
enum Given {
    Right,
    Damaged,
    /// Damaged, and nobody may read or write the output.
    OutputShutOff,
}

impl Given {
    fn name(self, length: usize) -> String {
        match self {
            Self::Right => format!("a packet of {length}"),
            Self::Damaged => format!("a damaged packet of {length}"),
            Self::OutputShutOff => format!("a damaged packet of {length}, the output shut off"),
        }
    }
}

/// One packet at once.
fn packet(variant: usize, function: &Function, length: usize, given: Given) -> bool {
    let mut job = Job::new(variant, function.operation, 37, length);
    if given != Given::Right {
        *job.input.last_mut().expect("a tag") ^= 1;
    }
    for bytes in [&job.key, &job.nonce, &job.header, &job.input] {
        make_undefined(bytes);
    }
    if given == Given::OutputShutOff {
        shut_off(&job.output);
    }
    let (name, what) = (function.name, given.name(length));
    let name = format!("variant {}, {name} {what}", variant + 1);
    case(&name, function.expected, || {
        let (packet, output) = job.lend();
        black_box((function.call)(packet, output));
    })
}

/// Which start comes after a sealed message.
#[derive(Clone, Copy, PartialEq)]
enum Second {
    None,
    SamePair,
    OtherKey,
    OtherNonce,
}

impl Second {
    const ALL: [Self; 4] = [Self::None, Self::SamePair, Self::OtherKey, Self::OtherNonce];

    fn name(self) -> &'static str {
        match self {
            Self::None => "no second start",
            Self::SamePair => "the same pair again",
            Self::OtherKey => "another key",
            Self::OtherNonce => "another nonce",
        }
    }
}

/// A list, and where in it contents stand.
struct Secrets {
    list: List,
    contents: Vec<Range<usize>>,
}

impl Secrets {
    /// A list without calls.
    fn none(variant: usize) -> Self {
        Self {
            list: List::new(variant as u8 + 1),
            contents: Vec::new(),
        }
    }

    /// Makes a call whose runs, the last `n` bytes of it, are contents.
    fn call(&mut self, n: usize, call: impl FnOnce(&mut List)) {
        call(&mut self.list);
        let end = self.list.bytes().len();
        self.contents.push(end - n..end);
    }

    /// A message sealed in pieces, a query, the tag, a reset, and perhaps
    /// another start for sealing.
    fn sealing(variant: usize, second: Second) -> Self {
        let sizes = VARIANTS[variant];
        let (mut key, mut nonce) = (vec![1; sizes.key_bytes()], vec![2; sizes.nonce_bytes()]);
        let (size, pair) = (sizes.tag_bytes() as u64, key.len() + nonce.len());
        let mut new = Self::none(variant);
        new.call(pair + 20, |list| {
            list.init(Direction::Sealing, size, &key, &nonce, &[3; 20]);
        });
        new.call(33, |list| list.process_aad_bytes(&[4; 33]));
        for n in [1, 31, 32, 33, 70] {
            let (input, output) = (vec![5; n], vec![6; n + 32]);
            new.call(n + n + 32, |list| list.process_bytes(&input, &output));
        }
        new.list.update_output_len(7);
        new.call(64, |list| list.do_final(&[7; 64]));
        new.list.mac();
        new.list.reset();
        match second {
            Second::None => return new,
            Second::SamePair => {}
            Second::OtherKey => key[0] ^= 1,
            Second::OtherNonce => nonce[0] ^= 1,
        }
        new.call(pair, |list| {
            list.init(Direction::Sealing, size, &key, &nonce, &[]);
        });
        new
    }

    /// A packet opened in pieces, its last byte changed by `damage`.
    fn opening(variant: usize, damage: u8) -> Self {
        let Job {
            key,
            nonce,
            header,
            mut input,
            ..
        } = Job::new(variant, Operation::Open, 37, 150);
        *input.last_mut().expect("a tag") ^= damage;
        let size = VARIANTS[variant].tag_bytes() as u64;
        let mut new = Self::none(variant);
        new.call(key.len() + nonce.len() + header.len(), |list| {
            list.init(Direction::Opening, size, &key, &nonce, &header);
        });
        for piece in input.chunks(33) {
            let output = [6; 64];
            new.call(piece.len() + output.len(), |list| {
                list.process_bytes(piece, &output);
            });
        }
        new.call(64, |list| list.do_final(&[7; 64]));
        new
    }
}

/// A list of calls.
fn list(variant: usize, what: &str, secrets: &Secrets, expected: u64) -> bool {
    let bytes = secrets.list.bytes();
    let mut answers = vec![0; secrets.list.answers_len()];
    for contents in &secrets.contents {
        make_undefined(&bytes[contents.clone()]);
    }
    let name = format!("variant {}, a list, {what}", variant + 1);
    let fine = case(&name, expected, || {
        black_box(host::run(bytes, &mut answers));
    });
    make_defined(bytes);
    fine
}

fn main() -> ExitCode {
    if !running() {
        eprintln!("this program looks for nothing outside memcheck: tools/constant-time");
        return ExitCode::FAILURE;
    }
    let mut fine = controls();
    for variant in 0..VARIANTS.len() {
        for length in [0, 1, 64, 1000] {
            fine &= packet(variant, &SEAL, length, Given::Right);
            for function in [OPEN, OPEN_WHOLE] {
                fine &= packet(variant, &function, length, Given::Right);
                fine &= packet(variant, &function, length, Given::Damaged);
            }
            fine &= packet(variant, &OPEN_WHOLE, length, Given::OutputShutOff);
        }
        for second in Second::ALL {
            let expected = match second {
                Second::None => 0,
                _ => SECOND_START,
            };
            let secrets = Secrets::sealing(variant, second);
            fine &= list(variant, second.name(), &secrets, expected);
        }
        for (what, damage) in [("opening", 0), ("opening, damaged", 1)] {
            let secrets = Secrets::opening(variant, damage);
            fine &= list(variant, what, &secrets, LIST_OPENS);
        }
    }
    if fine {
        ExitCode::SUCCESS
    } else {
        ExitCode::FAILURE
    }
}
