//! Every entry of the four known-answer files (kat/), sealed and opened by the
//! port: at once, and by lists that cut header and data in several ways.

use host::{Answers, Direction, Done, Packet};
use replay::calls::{VARIANTS, variant_number};
use replay::kat::{Entry, entries};
use replay::random::Random;
use tc_sparkle_aead::SparkleVariant;

/// A header or data in pieces.
type Pieces<'a> = Vec<&'a [u8]>;

fn at_once(bytes: &[u8]) -> Pieces<'_> {
    vec![bytes]
}

fn byte_by_byte(bytes: &[u8]) -> Pieces<'_> {
    bytes.chunks(1).collect()
}

fn in_halves(bytes: &[u8]) -> Pieces<'_> {
    let (first, second) = bytes.split_at(bytes.len() / 2);
    vec![first, second]
}

/// Runs one message as a list: `initial` pieces of the header go to init, the
/// others to header calls. What it wrote comes back; the tag has to be the one
/// at the packet's end.
fn by_list(
    variant: SparkleVariant,
    entry: &Entry,
    direction: Direction,
    initial: usize,
    header: &[&[u8]],
    data: &[&[u8]],
) -> Vec<u8> {
    let (rate, tag) = (variant.nonce_bytes(), variant.tag_bytes());
    let mut list = host::List::new(variant_number(variant));
    let (first, later) = header.split_at(initial.min(header.len()));
    let first = first.concat();
    list.init(direction, tag as u64, &entry.key, &entry.nonce, &first);
    later.iter().for_each(|piece| list.process_aad_bytes(piece));
    for piece in data {
        list.process_bytes(piece, &vec![0xa5; piece.len() + rate]);
    }
    list.do_final(&vec![0xa5; rate + tag]);
    list.mac();
    let mut answers = vec![0; list.answers_len()];
    assert_eq!(host::run(list.bytes(), &mut answers).code, 0);
    let mut out = Vec::new();
    let answers: Vec<_> = Answers(&answers).collect();
    let (mac, calls) = answers.split_last().unwrap();
    for answer in calls {
        assert_eq!(answer.code, 0);
        out.extend(&answer.bytes[..answer.first as usize]);
    }
    assert_eq!(mac.first as usize, tag);
    assert!(entry.packet.ends_with(&mac.bytes[..tag]));
    out
}

/// An entry through lists, cut in one way.
fn cut(
    variant: SparkleVariant,
    entry: &Entry,
    initial: usize,
    mut pieces: impl for<'a> FnMut(&'a [u8]) -> Pieces<'a>,
) {
    let header = pieces(&entry.header);
    for (direction, input, output) in [
        (Direction::Sealing, &entry.message, &entry.packet),
        (Direction::Opening, &entry.packet, &entry.message),
    ] {
        let data = pieces(input);
        let out = by_list(variant, entry, direction, initial, &header, &data);
        assert!(out == *output, "{variant}, {direction:?}, {}", entry.count);
    }
}

/// Every entry of every file.
fn each(mut check: impl FnMut(SparkleVariant, &Entry)) {
    for variant in VARIANTS {
        entries(variant)
            .iter()
            .for_each(|entry| check(variant, entry));
    }
}

/// A packet sealed or opened at once, with so many bytes written.
fn written(first: usize) -> Done {
    Done {
        code: 0,
        first,
        second: 0,
    }
}

#[test]
fn one_shot() {
    each(|variant, entry| {
        let packet = Packet {
            variant: variant_number(variant),
            key: &entry.key,
            nonce: &entry.nonce,
            header: &entry.header,
            message: &entry.message,
        };
        let mut sealed = vec![0xa5; entry.packet.len()];
        let done = host::seal(packet, &mut sealed);
        assert_eq!(done, written(sealed.len()));
        assert!(sealed == entry.packet, "{variant}, {}", entry.count);
        let packet = Packet {
            message: &entry.packet,
            ..packet
        };
        let mut opened = vec![0xa5; entry.message.len()];
        let done = host::open(packet, &mut opened);
        assert_eq!(done, written(opened.len()));
        assert!(opened == entry.message, "{variant}, {}", entry.count);
    });
}

#[test]
fn whole() {
    each(|variant, entry| cut(variant, entry, 1, at_once));
    each(|variant, entry| cut(variant, entry, 0, at_once));
}

#[test]
fn single_bytes() {
    each(|variant, entry| cut(variant, entry, 0, byte_by_byte));
}

#[test]
fn halves() {
    each(|variant, entry| cut(variant, entry, 0, in_halves));
    each(|variant, entry| cut(variant, entry, 1, in_halves));
}

#[test]
fn random_cuts() {
    let mut random = Random(8);
    for _ in 0..4 {
        each(|variant, entry| {
            let initial = random.below(3);
            cut(variant, entry, initial, |bytes| random.pieces(bytes));
        });
    }
}

/// A bit of any entry's packet that is another one is found out.
#[test]
fn damaged() {
    let mut random = Random(9);
    each(|variant, entry| {
        let mut damaged = entry.packet.clone();
        let at = random.below(damaged.len());
        damaged[at] ^= 1 << random.below(8);
        let packet = Packet {
            variant: variant_number(variant),
            key: &entry.key,
            nonce: &entry.nonce,
            header: &entry.header,
            message: &damaged,
        };
        let mut opened = vec![0xa5; entry.message.len()];
        let done = host::open(packet, &mut opened);
        assert_eq!((done.code, done.first, done.second), (6, 0, 0));
        let last = entry.message.len()
            - entry.message.len().saturating_sub(1) / variant.nonce_bytes() * variant.nonce_bytes();
        let from = opened.len() - last;
        assert!(opened[from..].iter().all(|byte| *byte == 0));
    });
}
