//! The functions and types for users, on every variant.

use schwaemm::{
    Calls, Direction, Error, Finished, Message, Variant, open, open_into, open_whole,
    open_whole_into, seal, seal_into,
};

/// A key, a nonce and a header that differ in each variant.
fn given(variant: Variant) -> (Vec<u8>, Vec<u8>, Vec<u8>) {
    let number = variant.number();
    (
        vec![number; variant.key_bytes()],
        vec![number + 10; variant.nonce_bytes()],
        vec![number + 20; 20],
    )
}

/// Lengths around the boundaries.
fn lengths(variant: Variant) -> Vec<usize> {
    let (rate, tag) = (variant.nonce_bytes(), variant.tag_bytes());
    let mut lengths = vec![0, 1, 1000];
    for at in [rate, tag, rate + tag, 2 * rate, 2 * rate + tag] {
        lengths.extend([at - 1, at, at + 1]);
    }
    lengths
}

fn message(n: usize) -> Vec<u8> {
    (0..n).map(|i| i as u8).collect()
}

/// What an output holds before a call; none of its bytes is 0.
fn lent(n: usize) -> Vec<u8> {
    (0..n).map(|i| 0x80 | i as u8).collect()
}

#[test]
fn variants() {
    let names = [
        "Schwaemm128-128",
        "Schwaemm256-128",
        "Schwaemm192-192",
        "Schwaemm256-256",
    ];
    for (variant, name) in Variant::ALL.into_iter().zip(names) {
        assert_eq!(variant.to_string(), name);
        assert_eq!(Variant::from_number(variant.number()), Some(variant));
    }
    assert_eq!(Variant::from_number(0), None);
    assert_eq!(Variant::from_number(5), None);
}

/// The first and the third entry of kat/LWC_AEAD_KAT_128_128.txt, of the third
/// the first four bytes.
#[test]
fn known_answers() {
    let bytes: Vec<u8> = (0..16).collect();
    let variant = Variant::Schwaemm128_128;
    let packet = seal(variant, &bytes, &bytes, b"", b"").unwrap();
    assert_eq!(
        packet,
        [
            0xdd, 0xce, 0x77, 0xcd, 0xb7, 0x48, 0xe6, 0xd0, 0x53, 0xca, 0xb7, 0xe9, 0x19, 0x0a,
            0x83, 0x49
        ]
    );
    let packet = seal(variant, &bytes, &bytes, &[0, 1], b"").unwrap();
    assert_eq!(packet[..4], [0xcc, 0x76, 0x0a, 0x9a]);
}

/// At once, into slices and in pieces: the same packet, and the message again.
#[test]
fn round_trips() {
    for variant in Variant::ALL {
        let (key, nonce, header) = given(variant);
        for n in lengths(variant) {
            let message = message(n);
            let packet = seal(variant, &key, &nonce, &header, &message).unwrap();
            assert_eq!(packet.len(), n + variant.tag_bytes());
            for call in [open, open_whole] {
                let opened = call(variant, &key, &nonce, &header, &packet);
                assert_eq!(opened.unwrap(), message);
            }

            let mut output = vec![0xee; packet.len() + 5];
            let written = seal_into(variant, &key, &nonce, &header, &message, &mut output);
            assert_eq!(written, Ok(packet.len()));
            assert_eq!(output[..packet.len()], packet);
            assert_eq!(output[packet.len()..], [0xee; 5]);
            for call in [open_into, open_whole_into] {
                let mut output = lent(n + 9);
                let written = call(variant, &key, &nonce, &header, &packet, &mut output);
                assert_eq!(written, Ok(n));
                assert_eq!(output[..n], message);
                assert_eq!(output[n..], lent(n + 9)[n..]);
            }

            for cut in [1, 7, 32, 2000] {
                let mut sealing = Message::sealing(variant, &key, &nonce);
                let mut opening = Message::opening(variant, &key, &nonce);
                header.chunks(cut).for_each(|piece| sealing.header(piece));
                header.chunks(cut).for_each(|piece| opening.header(piece));
                message.chunks(cut).for_each(|piece| sealing.data(piece));
                packet.chunks(cut).for_each(|piece| opening.data(piece));
                let (sealed, opened) = (sealing.finish().unwrap(), opening.finish().unwrap());
                assert_eq!(sealed.bytes, packet);
                assert_eq!(sealed.tag, packet[n..]);
                assert_eq!(opened.bytes, message);
                assert_eq!((opened.tag, opened.steps), (sealed.tag, sealed.steps));
            }
        }
    }
}

/// The functions stand alone: threads do not disturb each other.
#[test]
fn threads() {
    let (key, nonce, header) = given(Variant::Schwaemm256_256);
    let message = message(5000);
    let one = seal(Variant::Schwaemm256_256, &key, &nonce, &header, &message);
    assert!(one.is_ok());
    std::thread::scope(|scope| {
        for _ in 0..4 {
            scope.spawn(|| {
                for _ in 0..50 {
                    let again = seal(Variant::Schwaemm256_256, &key, &nonce, &header, &message);
                    assert!(again == one);
                }
            });
        }
    });
}

/// Document 01's worked examples of steps.
#[test]
fn steps() {
    let steps = |variant: Variant, header: usize, n: usize| {
        let (key, nonce, _) = given(variant);
        let mut sealing = Message::sealing(variant, &key, &nonce);
        sealing.header(&message(header));
        sealing.data(&message(n));
        sealing.finish().unwrap().steps
    };
    assert_eq!(steps(Variant::Schwaemm128_128, 20, 33), 51);
    assert_eq!(steps(Variant::Schwaemm128_128, 0, 0), 10);
    assert_eq!(steps(Variant::Schwaemm128_128, 16, 16), 30);
    assert_eq!(steps(Variant::Schwaemm256_256, 33, 32), 44);
}

#[test]
fn wrong_lengths() {
    for variant in Variant::ALL {
        let (key, nonce, header) = given(variant);
        let (short_key, short_nonce) = (&key[1..], &nonce[1..]);
        let one = Error::InvalidKeyLength {
            actual: key.len() - 1,
        };
        let two = Error::InvalidNonceLength {
            actual: nonce.len() - 1,
        };
        let packet = [0; 100];
        for call in [seal, open, open_whole] {
            assert_eq!(call(variant, short_key, &nonce, &header, &packet), Err(one));
            assert_eq!(call(variant, &key, short_nonce, &header, &packet), Err(two));
            let both = call(variant, short_key, short_nonce, &header, &packet);
            assert_eq!(both, Err(one));
        }
        for begin in [Message::sealing, Message::opening] {
            assert_eq!(begin(variant, short_key, &nonce).finish(), Err(one));
            assert_eq!(begin(variant, &key, short_nonce).finish(), Err(two));
        }
    }
}

/// An output that is too short: the totals are said, whatever call was refused.
#[test]
fn short_outputs() {
    for variant in Variant::ALL {
        let (key, nonce, header) = given(variant);
        for n in lengths(variant) {
            let message = message(n);
            let packet = seal(variant, &key, &nonce, &header, &message).unwrap();
            for available in [0, n / 2, packet.len() - 1] {
                let mut output = vec![0xee; available];
                let answer = seal_into(variant, &key, &nonce, &header, &message, &mut output);
                let required = packet.len();
                let error = Error::OutputTooShort {
                    required,
                    available,
                };
                assert_eq!(answer, Err(error));
            }
            for available in [0, n / 2, n.saturating_sub(1)] {
                if available < n {
                    let mut output = vec![0xee; available];
                    let answer = open_into(variant, &key, &nonce, &header, &packet, &mut output);
                    let required = n;
                    let error = Error::OutputTooShort {
                        required,
                        available,
                    };
                    assert_eq!(answer, Err(error));
                    assert_eq!(output, vec![0; available]);
                }
            }
        }
    }
}

/// A wrong tag: nothing of the message is left, early blocks neither, and what
/// lies behind is not touched.
#[test]
fn failed_tags() {
    for variant in Variant::ALL {
        let (key, nonce, header) = given(variant);
        for n in lengths(variant) {
            let mut packet = seal(variant, &key, &nonce, &header, &message(n)).unwrap();
            let last = packet.len() - 1;
            packet[last] ^= 0x80;
            let failed = Error::AuthenticationFailed;
            for call in [open, open_whole] {
                assert_eq!(call(variant, &key, &nonce, &header, &packet), Err(failed));
            }
            let mut output = vec![0xee; n + 9];
            let answer = open_into(variant, &key, &nonce, &header, &packet, &mut output);
            assert_eq!(answer, Err(failed));
            assert_eq!(output[..n], vec![0; n]);
            assert_eq!(output[n..], [0xee; 9]);
            let mut opening = Message::opening(variant, &key, &nonce);
            opening.header(&header);
            opening.data(&packet);
            assert_eq!(opening.finish(), Err(failed));
        }
    }
}

/// Opening whole or not at all: as one fault after the other is mended, 1, 2, 5,
/// 4 and 6 come in turn, and each leaves the output as it was lent. Then the
/// message comes.
#[test]
fn open_whole_refuses_in_turn() {
    for variant in Variant::ALL {
        let (key, nonce, header) = given(variant);
        let (short_key, short_nonce) = (&key[1..], &nonce[1..]);
        let minimum = variant.tag_bytes();
        for n in lengths(variant) {
            let packet = seal(variant, &key, &nonce, &header, &message(n)).unwrap();
            let mut damaged = packet.clone();
            damaged[n / 2] ^= 1;
            let short = &damaged[..minimum - 1];
            let refused = |key: &[u8], nonce: &[u8], packet: &[u8], room| {
                let mut output = lent(room);
                let answer = open_whole_into(variant, key, nonce, &header, packet, &mut output);
                assert_eq!(output, lent(room));
                answer.unwrap_err()
            };
            for room in [0, n / 2, n, n + 9] {
                let one = Error::InvalidKeyLength {
                    actual: key.len() - 1,
                };
                assert_eq!(refused(short_key, short_nonce, short, room), one);
                assert_eq!(refused(short_key, &nonce, &packet, room), one);
                let two = Error::InvalidNonceLength {
                    actual: nonce.len() - 1,
                };
                assert_eq!(refused(&key, short_nonce, short, room), two);
                assert_eq!(refused(&key, short_nonce, &packet, room), two);
                let five = Error::CiphertextTooShort {
                    minimum,
                    actual: minimum - 1,
                };
                assert_eq!(refused(&key, &nonce, short, room), five);
                if room < n {
                    let four = Error::OutputTooShort {
                        required: n,
                        available: room,
                    };
                    assert_eq!(refused(&key, &nonce, &damaged, room), four);
                    assert_eq!(refused(&key, &nonce, &packet, room), four);
                } else {
                    let six = Error::AuthenticationFailed;
                    assert_eq!(refused(&key, &nonce, &damaged, room), six);
                    let mut output = lent(room);
                    let answer =
                        open_whole_into(variant, &key, &nonce, &header, &packet, &mut output);
                    assert_eq!(answer, Ok(n));
                    assert_eq!(output[..n], message(n));
                    assert_eq!(output[n..], lent(room)[n..]);
                }
            }
        }
    }
}

#[test]
fn short_ciphertexts() {
    for variant in Variant::ALL {
        let (key, nonce, header) = given(variant);
        let minimum = variant.tag_bytes();
        for actual in [0, 1, minimum - 1] {
            let error = Error::CiphertextTooShort { minimum, actual };
            let packet = vec![0; actual];
            for call in [open, open_whole] {
                assert_eq!(call(variant, &key, &nonce, &header, &packet), Err(error));
            }
            let mut opening = Message::opening(variant, &key, &nonce);
            opening.header(&header);
            if actual > 0 {
                opening.data(&packet);
            }
            assert_eq!(opening.finish(), Err(error));
        }
    }
}

#[test]
fn a_header_behind_data() {
    let (key, nonce, header) = given(Variant::Schwaemm256_256);
    let mut sealing = Message::sealing(Variant::Schwaemm256_256, &key, &nonce);
    sealing.data(b"data");
    sealing.header(b"");
    sealing.header(&header);
    sealing.data(b"more");
    assert_eq!(sealing.finish(), Err(Error::AadAfterData));
    let mut sealing = Message::sealing(Variant::Schwaemm256_256, &key, &nonce);
    sealing.data(b"");
    sealing.header(&header);
    assert_eq!(sealing.finish(), Err(Error::AadAfterData));
}

/// Calls in any order, with every other refusal.
#[test]
fn calls() {
    let variant = Variant::Schwaemm192_192;
    let (key, nonce, _) = given(variant);
    let mut calls = Calls::new(variant);
    assert!(calls.is_empty());
    calls.process_bytes(b"x", 40);
    calls.init(Direction::Sealing, &key, &nonce, 16, b"");
    calls.init(Direction::Sealing, &key, &nonce, 24, b"header");
    calls.mac();
    calls.update_output_len(25);
    calls.output_len(u64::MAX);
    calls.do_final(24);
    calls.do_final(24);
    calls.mac();
    calls.reset();
    calls.init(Direction::Sealing, &key, &nonce, 24, b"header");
    assert_eq!(calls.len(), 11);
    let answers = calls.run();
    let outcomes: Vec<_> = answers.iter().map(|answer| answer.outcome).collect();
    assert_eq!(
        outcomes,
        [
            Err(Error::NotInitialized),
            Err(Error::InvalidMacSize { actual: 16 }),
            Ok(0),
            Ok(0),
            Ok(24),
            Err(Error::InputTooLong),
            Ok(24),
            Err(Error::AlreadyFinalized),
            Ok(24),
            Ok(0),
            Err(Error::NonceReuse),
        ]
    );
    let tag = seal(variant, &key, &nonce, b"header", b"").unwrap();
    assert_eq!(answers[6].written(), tag);
    assert_eq!(answers[8].written(), tag);
    assert_eq!(answers[8].bytes.len(), 32);
    assert!(answers[4].written().is_empty());
    let readable: Vec<usize> = (0..11).filter(|i| answers[*i].tag_readable).collect();
    assert_eq!(readable, [6, 7, 8]);
    assert_eq!(calls.run(), answers);
}

#[test]
fn error_texts() {
    let too_short = Error::OutputTooShort {
        required: 17,
        available: 16,
    };
    assert_eq!(
        too_short.to_string(),
        "the output has 16 bytes where 17 are needed"
    );
    let boxed: Box<dyn std::error::Error + Send + Sync> = Box::new(too_short);
    assert!(boxed.source().is_none());
    assert_eq!(too_short.number(), 4);
    assert_eq!(
        Error::NonceReuse.to_string(),
        "key and nonce are those that were loaded last"
    );
}

/// What is secret is not shown by `Debug`.
#[test]
fn debug_shows_no_bytes() {
    let variant = Variant::Schwaemm128_128;
    let mut sealing = Message::sealing(variant, &[0xab; 16], &[2; 16]);
    sealing.data(&[0xab; 5]);
    let text = format!("{sealing:?}");
    assert!(!text.contains("171") && !text.contains("ab"), "{text}");
    let finished: Finished = sealing.finish().unwrap();
    assert_eq!(
        format!("{finished:?}"),
        "Finished { bytes: 21, tag: 16, steps: 20 }"
    );
    let mut calls = Calls::new(variant);
    calls.init(Direction::Sealing, &[0xab; 16], &[2; 16], 16, b"");
    calls.process_bytes(&[0xab; 17], 16);
    calls.do_final(17);
    calls.mac();
    let text = format!("{calls:?}");
    assert!(!text.contains("171") && !text.contains("ab"), "{text}");
    let texts: Vec<String> = calls.run().iter().map(|a| format!("{a:?}")).collect();
    assert_eq!(
        texts,
        [
            "Answer { outcome: Ok(0), bytes: 0, tag_readable: false, steps: 10 }",
            "Answer { outcome: Ok(16), bytes: 16, tag_readable: false, steps: 17 }",
            "Answer { outcome: Ok(17), bytes: 17, tag_readable: true, steps: 27 }",
            "Answer { outcome: Ok(16), bytes: 32, tag_readable: true, steps: 27 }",
        ]
    );
}
