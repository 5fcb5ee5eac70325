//! `schwaemm_open_whole` (document 02, 2026-03): it answers as the Rust's opening
//! does, by the request's order of checks, and a refusal leaves every byte of the
//! output as it was lent.

use differential::one_shot;
use host::{Done, NO_VARIANT, Packet};
use replay::calls::{Start, VARIANTS, sealed, variant_number};
use replay::kat::entries;
use replay::random::Random;
use replay::recorder::Recorder;
use tc_sparkle_aead::SparkleVariant;

/// What a lent output holds before a call; none of its bytes is 0.
fn lent(n: usize) -> Vec<u8> {
    (0..n).map(|i| 0x80 | i as u8).collect()
}

/// The bytes before and behind an output that have to stay.
const AROUND: usize = 16;

/// Opens a packet into `room` bytes. `returned` has to come back, and the output
/// has to hold `message` and then what was lent.
fn check(packet: Packet, room: usize, returned: (u8, usize, usize), message: &[u8]) {
    let before = lent(room + 2 * AROUND);
    let mut after = before.clone();
    let Done {
        code,
        first,
        second,
    } = host::open_whole(packet, &mut after[AROUND..AROUND + room]);
    let lengths = (packet.key.len(), packet.nonce.len(), packet.message.len());
    let case = (packet.variant, lengths, room);
    assert_eq!((code, first, second), returned, "{case:?}");
    let (start, end) = (AROUND, AROUND + message.len());
    assert!(after[start..end] == *message, "{case:?}");
    assert!(after[..start] == before[..start], "{case:?}");
    assert!(after[end..] == before[end..], "{case:?}");
}

/// The packet opens to the message.
fn opens(packet: Packet, room: usize, message: &[u8]) {
    check(packet, room, (0, message.len(), 0), message);
}

/// The packet is refused.
fn refuses(packet: Packet, room: usize, returned: (u8, usize, usize)) {
    check(packet, room, returned, &[]);
}

/// A message of `n` bytes behind a header of 5, with its packet by the Rust.
struct Sealed {
    variant: SparkleVariant,
    start: Start,
    message: Vec<u8>,
    packet: Vec<u8>,
}

impl Sealed {
    fn new(variant: SparkleVariant, n: usize, random: &mut Random) -> Self {
        let start = Start {
            opening: false,
            key: random.bytes(variant.key_bytes()),
            nonce: random.bytes(variant.nonce_bytes()),
            size: variant.tag_bytes(),
            header: random.bytes(5),
        };
        let message = random.bytes(n);
        let packet = sealed(variant, &start, &[], &message);
        Self {
            variant,
            start,
            message,
            packet,
        }
    }

    /// What the boundary takes.
    fn lend(&self) -> Packet<'_> {
        Packet {
            variant: variant_number(self.variant),
            key: &self.start.key,
            nonce: &self.start.nonce,
            header: &self.start.header,
            message: &self.packet,
        }
    }
}

/// Random packets, right or damaged, of every variant, with lengths around the
/// boundaries: answers and whole outputs are what the Rust's opening gives, and
/// each answer comes up.
#[test]
fn random_packets() {
    let mut r = Recorder::new(11);
    for variant in VARIANTS {
        let mut codes = [0; 7];
        for _ in 0..25_000 {
            let case = one_shot::random_of(&mut r, variant, true);
            let code = case.compare_whole().unwrap_or_else(|what| panic!("{what}"));
            codes[usize::from(code)] += 1;
        }
        for code in [0, 1, 2, 4, 5, 6] {
            assert!(codes[code] > 100, "{variant}: {codes:?}");
        }
    }
}

/// Packets of many blocks, right and with a bit changed in the first byte, in the
/// middle, and in the last byte of the tag.
#[test]
fn long_packets() {
    let mut random = Random(12);
    for variant in VARIANTS {
        for n in [4095, 4096, 65_537, 1 << 20] {
            let mut sealed = Sealed::new(variant, n, &mut random);
            opens(sealed.lend(), n, &sealed.message);
            opens(sealed.lend(), n + 100, &sealed.message);
            refuses(sealed.lend(), n - 1, (4, n, n - 1));
            for at in [0, n / 2, sealed.packet.len() - 1] {
                sealed.packet[at] ^= 0x10;
                refuses(sealed.lend(), n, (6, 0, 0));
                sealed.packet[at] ^= 0x10;
            }
        }
    }
}

/// Every entry of the four known-answer files, and each with a bit of its packet
/// changed.
#[test]
fn known_answers() {
    let mut random = Random(13);
    for variant in VARIANTS {
        for entry in entries(variant) {
            let packet = Packet {
                variant: variant_number(variant),
                key: &entry.key,
                nonce: &entry.nonce,
                header: &entry.header,
                message: &entry.packet,
            };
            let n = entry.message.len();
            opens(packet, n, &entry.message);
            let mut damaged = entry.packet.clone();
            damaged[random.below(n + variant.tag_bytes())] ^= 1 << random.below(8);
            let packet = Packet {
                message: &damaged,
                ..packet
            };
            refuses(packet, n + random.below(2), (6, 0, 0));
        }
    }
}

/// Each bit of key, nonce, header and packet by itself: 6, and the output is as it
/// was lent.
#[test]
fn every_bit_counts() {
    let mut random = Random(14);
    for variant in VARIANTS {
        let rate = variant.nonce_bytes();
        for n in [0, 1, rate - 1, rate, rate + 1, 49, 2 * rate, 3 * rate + 1] {
            let mut sealed = Sealed::new(variant, n, &mut random);
            let parts: [fn(&mut Sealed) -> &mut Vec<u8>; 4] = [
                |s| &mut s.start.key,
                |s| &mut s.start.nonce,
                |s| &mut s.start.header,
                |s| &mut s.packet,
            ];
            for part in parts {
                for bit in 0..8 * part(&mut sealed).len() {
                    part(&mut sealed)[bit / 8] ^= 1 << (bit % 8);
                    refuses(sealed.lend(), n + 3, (6, 0, 0));
                    part(&mut sealed)[bit / 8] ^= 1 << (bit % 8);
                }
            }
            opens(sealed.lend(), n + 3, &sealed.message);
        }
    }
}

/// All small lengths of key, nonce, packet and output, right packets and damaged
/// ones, by the request's order: 1, 2, 5, 4, 6.
#[test]
fn every_small_length() {
    let (key, nonce) = ([7; 40], [9; 40]);
    for variant in VARIANTS {
        let (right_key, right_nonce) = (variant.key_bytes(), variant.nonce_bytes());
        let tag = variant.tag_bytes();
        let start = Start {
            opening: false,
            key: key[..right_key].to_vec(),
            nonce: nonce[..right_nonce].to_vec(),
            size: tag,
            header: vec![3; 5],
        };
        for length in 0..=70_usize {
            let message: Vec<u8> = (0..length.saturating_sub(tag)).map(|i| i as u8).collect();
            let n = message.len();
            let mut packet = sealed(variant, &start, &[], &message);
            packet.truncate(length);
            for damaged in [false, true] {
                if damaged && length > 0 {
                    packet[length / 2] ^= 1;
                }
                for (k, m) in (0..=40).flat_map(|k| (0..=40).map(move |m| (k, m))) {
                    let lend = Packet {
                        variant: variant_number(variant),
                        key: &key[..k],
                        nonce: &nonce[..m],
                        header: &start.header,
                        message: &packet,
                    };
                    for room in 0..=50 {
                        if k != right_key {
                            refuses(lend, room, (1, k, 0));
                        } else if m != right_nonce {
                            refuses(lend, room, (2, m, 0));
                        } else if length < tag {
                            refuses(lend, room, (5, tag, length));
                        } else if room < n {
                            refuses(lend, room, (4, n, room));
                        } else if damaged {
                            refuses(lend, room, (6, 0, 0));
                        } else {
                            opens(lend, room, &message);
                        }
                    }
                }
            }
        }
    }
}

/// A variant that is none comes before all else: 23 and zeros, whatever else is
/// wrong.
#[test]
fn variants_that_are_none() {
    for variant in (5..=255).chain([0]) {
        for (key, nonce, length) in [(16, 16, 40), (0, 16, 40), (16, 0, 40), (16, 16, 3)] {
            let packet = Packet {
                variant,
                key: &[1; 16][..key],
                nonce: &[2; 16][..nonce],
                header: &[3; 5],
                message: &[4; 40][..length],
            };
            for room in [0, 80] {
                refuses(packet, room, (NO_VARIANT, 0, 0));
            }
        }
    }
}
