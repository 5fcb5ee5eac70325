//! Lists that are malformed and answers that do not fit, by docs/HOST.md: the
//! codes 21 to 23, their places, and what the lent slices hold afterwards; and
//! what a whole packet's call leaves in its output.

use differential::walks;
use host::{ANSWER_HEAD, CALL_HEAD, Done, MALFORMED, NO_ROOM, NO_VARIANT, Packet, Ran};
use replay::boundary::{call_list, expected};
use replay::calls::{VARIANTS, variant_number};
use replay::random::Random;
use replay::recorder::Recorder;

/// What the lent answers hold before a run.
const LENT: u8 = 0x5a;

/// What docs/HOST.md says of a list and of `room` bytes for answers: code and
/// place, and how many bytes of answers are written.
fn predicted(list: &[u8], room: usize) -> (Ran, usize) {
    let stop = |code, place, written| (Ran { code, place }, written);
    if !list
        .first()
        .is_some_and(|variant| (1..=4).contains(variant))
    {
        return stop(MALFORMED, 0, 0);
    }
    let (mut at, mut written) = (1, 0);
    while at < list.len() {
        let call = &list[at..];
        if call.len() < CALL_HEAD || !(1..=9).contains(&call[0]) {
            return stop(MALFORMED, at, written);
        }
        let length = |i: usize| u64::from_le_bytes(call[i..i + 8].try_into().unwrap());
        let lengths = [length(9), length(17), length(25)];
        let whole = CALL_HEAD as u128 + lengths.iter().map(|n| u128::from(*n)).sum::<u128>();
        if whole > call.len() as u128 {
            return stop(MALFORMED, at, written);
        }
        let bytes = match call[0] {
            4 | 5 => lengths[2] as usize,
            7 => 32,
            _ => 0,
        };
        if room - written < ANSWER_HEAD + bytes {
            return stop(NO_ROOM, at, written);
        }
        at += whole as usize;
        written += ANSWER_HEAD + bytes;
    }
    stop(0, at, written)
}

/// Runs a list as it is, with other bytes around the answers, which have to
/// stay.
fn run(list: &[u8], room: usize) -> (Ran, Vec<u8>) {
    let mut lent = vec![LENT; room + 32];
    let ran = host::run(list, &mut lent[16..16 + room]);
    assert!(lent[..16].iter().all(|byte| *byte == LENT));
    assert!(lent[16 + room..].iter().all(|byte| *byte == LENT));
    (ran, lent[16..16 + room].to_vec())
}

/// Runs a list and holds it to what is predicted; the answers have to be those
/// of the calls before the place, run alone, and then what was lent.
fn check(list: &[u8], room: usize) -> Ran {
    let (ran, answers) = run(list, room);
    let (expected, written) = predicted(list, room);
    assert_eq!(ran, expected, "room {room}, list {list:02x?}");
    let (done, alone) = run(&list[..ran.place], written);
    if ran.place > 0 {
        assert_eq!((done.code, done.place), (0, ran.place));
    }
    assert_eq!(answers[..written], alone);
    assert!(answers[written..].iter().all(|byte| *byte == LENT));
    ran
}

/// Random lists with the answers that all their calls have.
fn lists(seed: u64, n: usize) -> Vec<(Vec<u8>, Vec<u8>)> {
    let mut r = Recorder::new(seed);
    (0..n).for_each(|_| walks::walk(&mut r));
    let lists = r.take();
    assert_eq!(lists.len(), n);
    lists
        .iter()
        .map(|list| {
            let calls = call_list(list);
            assert!(!list.calls.is_empty());
            assert_eq!(calls.answers_len(), expected(list).len());
            (calls.bytes().to_vec(), expected(list))
        })
        .collect()
}

/// A call with any numbers.
fn raw(kind: u8, n: u64, runs: [&[u8]; 3]) -> Vec<u8> {
    let mut call = vec![kind];
    call.extend(n.to_le_bytes());
    runs.iter()
        .for_each(|run| call.extend((run.len() as u64).to_le_bytes()));
    runs.iter().for_each(|run| call.extend(*run));
    call
}

#[test]
fn lists_without_a_variant() {
    assert_eq!(check(&[], 100).code, MALFORMED);
    for variant in 0..=255 {
        let mut list = vec![variant];
        let code = if (1..=4).contains(&variant) {
            0
        } else {
            MALFORMED
        };
        assert_eq!(check(&list, 100).code, code);
        assert_eq!(check(&list, 0).code, code);
        list.extend(raw(6, 0, [&[]; 3]));
        assert_eq!(check(&list, 100).code, code);
    }
}

/// Each list, cut at every length.
#[test]
fn truncated_lists() {
    for (list, answers) in lists(1, 60) {
        for length in 0..=list.len() {
            check(&list[..length], answers.len());
        }
    }
}

/// Each list, with answers of every length.
#[test]
fn short_answers() {
    for (list, answers) in lists(2, 60) {
        for room in 0..=answers.len() + 2 {
            let ran = check(&list, room);
            assert_eq!(ran.code == 0, room >= answers.len());
        }
    }
}

/// Both at once: of a call that is malformed and whose answer would not fit,
/// 21 comes.
#[test]
fn truncated_lists_and_short_answers() {
    let mut random = Random(3);
    for (list, answers) in lists(3, 200) {
        for _ in 0..50 {
            let (length, room) = (
                random.below(list.len() + 1),
                random.below(answers.len() + 1),
            );
            check(&list[..length], room);
        }
    }
    for kind in 1..=9 {
        let mut list = vec![1];
        list.extend(&raw(kind, 0, [&[1], &[], &[]])[..CALL_HEAD]);
        let place = 1;
        let code = MALFORMED;
        assert_eq!(check(&list, 0), Ran { code, place });
        list.push(1);
        let code = NO_ROOM;
        assert_eq!(check(&list, 0), Ran { code, place });
    }
}

#[test]
fn kinds_that_are_none() {
    for kind in 0..=255 {
        let mut list = vec![2];
        list.extend(raw(7, 0, [&[]; 3]));
        list.extend(raw(kind, 0, [&[]; 3]));
        let ran = check(&list, 200);
        let known = (1..=9).contains(&kind);
        let (code, place) = if known {
            (0, list.len())
        } else {
            (MALFORMED, 34)
        };
        assert_eq!(ran, Ran { code, place });
    }
}

/// Lengths of runs whose sum passes the list's end or 2^64.
#[test]
fn lengths_near_the_largest() {
    let most = u64::MAX;
    let lengths = [
        0,
        1,
        2,
        33,
        most,
        most - 1,
        most - 32,
        most - 33,
        most - 34,
        most / 2,
        most / 2 + 1,
        most / 3 + 1,
        1 << 32,
    ];
    for kind in 1..=9 {
        for a in lengths {
            for b in lengths {
                for c in lengths {
                    let mut list = vec![1, kind, 0, 0, 0, 0, 0, 0, 0, 0];
                    [a, b, c].iter().for_each(|n| list.extend(n.to_le_bytes()));
                    list.extend([7; 40]);
                    check(&list, 100);
                }
            }
        }
    }
}

/// Bytes that are no list, or seldom are.
#[test]
fn random_bytes() {
    let mut random = Random(4);
    let mut codes = [0; 23];
    for _ in 0..200_000 {
        let n = random.below(120);
        let mut list = random.bytes(n);
        if let Some(variant) = list.first_mut() {
            *variant %= 6;
        }
        if n > 34 {
            list[1] %= 12;
            for at in 9..34 {
                if random.below(30) != 0 {
                    list[1 + at] = if (at - 9) % 8 == 0 {
                        random.below(40) as u8
                    } else {
                        0
                    };
                }
            }
        }
        let room = random.below(120);
        codes[usize::from(check(&list, room).code)] += 1;
    }
    assert!(codes[0] > 0 && codes[21] > 0 && codes[22] > 0, "{codes:?}");
}

/// Lists with a few bytes changed anywhere.
#[test]
fn damaged_lists() {
    let mut random = Random(5);
    let mut codes = [0; 23];
    for (list, answers) in lists(5, 300) {
        for _ in 0..100 {
            let mut list = list.clone();
            for _ in 0..1 + random.below(3) {
                let at = random.below(list.len());
                list[at] = random.pick(&[0, 1, 9, 10, 255, list[at] ^ 1]);
            }
            let room = random.pick(&[answers.len(), 2 * answers.len(), answers.len() / 2]);
            codes[usize::from(check(&list, room).code)] += 1;
        }
    }
    assert!(codes[0] > 0 && codes[21] > 0 && codes[22] > 0, "{codes:?}");
}

/// What a kind does not use is skipped, whatever it holds.
#[test]
fn unused_parts_are_skipped() {
    let mut random = Random(6);
    for (list, answers) in lists(6, 500) {
        let mut other = vec![list[0]];
        let mut at = 1;
        while at < list.len() {
            let head = &list[at..at + CALL_HEAD];
            let number = |i: usize| u64::from_le_bytes(head[i..i + 8].try_into().unwrap());
            let (kind, n) = (head[0], number(1));
            at += CALL_HEAD;
            let mut run = |i| {
                let from = at;
                at += number(i) as usize;
                list[from..at].to_vec()
            };
            let runs = [run(9), run(17), run(25)];
            let (uses_n, uses) = match kind {
                1 | 2 => (true, [true, true, true]),
                3 => (false, [true, false, false]),
                4 => (false, [true, false, true]),
                5 => (false, [false, false, true]),
                6 | 7 => (false, [false, false, false]),
                _ => (true, [false, false, false]),
            };
            let n = if uses_n { n } else { random.word() };
            let runs = std::array::from_fn(|i| {
                if uses[i] {
                    runs[i].clone()
                } else {
                    let length = random.below(40);
                    random.bytes(length)
                }
            });
            let [a, b, c]: [Vec<u8>; 3] = runs;
            other.extend(raw(kind, n, [&a, &b, &c]));
        }
        let (ran, got) = run(&other, answers.len());
        let place = other.len();
        assert_eq!(ran, Ran { code: 0, place });
        assert!(got == answers);
    }
}

/// Slices may begin anywhere.
#[test]
fn any_alignment() {
    for (list, answers) in lists(7, 50) {
        for offset in 0..9 {
            let mut moved = vec![0; offset];
            moved.extend(&list);
            let mut lent = vec![LENT; offset + answers.len()];
            let ran = host::run(&moved[offset..], &mut lent[offset..]);
            assert_eq!(ran.code, 0);
            assert!(lent[offset..] == answers);
        }
    }
}

/// What a packet's call returns.
fn returned(code: u8, [first, second]: [usize; 2]) -> Done {
    Done {
        code,
        first,
        second,
    }
}

/// A variant that is none: 23 and zeros, and nothing is written.
#[test]
fn one_shot_without_a_variant() {
    for variant in (5..=255).chain([0]) {
        let packet = Packet {
            variant,
            key: &[1; 16],
            nonce: &[2; 16],
            header: &[3; 5],
            message: &[4; 40],
        };
        for call in [host::seal, host::open, host::open_whole] {
            let mut output = [LENT; 80];
            let done = call(packet, &mut output);
            assert_eq!(done, returned(NO_VARIANT, [0, 0]));
            assert_eq!(output, [LENT; 80]);
        }
    }
}

/// What a packet's call returns and leaves in the output, by each row of the
/// table in docs/HOST.md but 23's. Of a packet whose tag alone is damaged the
/// blocks that are written before the end are the message's.
#[test]
fn one_shot_outputs() {
    for variant in VARIANTS {
        let (rate, tag) = (variant.nonce_bytes(), variant.tag_bytes());
        let (key, nonce) = (&vec![1; tag][..], &vec![2; rate][..]);
        let check = |opening, (key, nonce), message: &[u8], room, code, values, start: &[u8]| {
            let packet = Packet {
                variant: variant_number(variant),
                key,
                nonce,
                header: &[3; 5],
                message,
            };
            let mut output = vec![LENT; room];
            let call = if opening { host::open } else { host::seal };
            let done = call(packet, &mut output);
            assert_eq!(done, returned(code, values));
            assert_eq!(output[..start.len()], *start);
            assert!(output[start.len()..].iter().all(|byte| *byte == LENT));
        };
        for n in [0, 1, rate, rate + 1, 3 * rate, 3 * rate + 5] {
            let message: Vec<u8> = (0..n).map(|i| 100 + i as u8).collect();
            let mut sealed = vec![0; n + tag];
            let packet = Packet {
                variant: variant_number(variant),
                key,
                nonce,
                header: &[3; 5],
                message: &message,
            };
            host::seal(packet, &mut sealed);
            let blocks = n.saturating_sub(1) / rate * rate;
            let last = n - blocks;
            let pair = (key, nonce);
            let whole = n + tag;
            check(false, pair, &message, whole + 9, 0, [whole, 0], &sealed);
            check(true, pair, &sealed, n + 9, 0, [n, 0], &message);
            for (opening, input) in [(false, &message), (true, &sealed)] {
                let (short_key, short_nonce) = ((&key[1..], nonce), (key, &nonce[1..]));
                check(opening, short_key, input, whole, 1, [tag - 1, 0], &[]);
                check(opening, short_nonce, input, whole, 2, [rate - 1, 0], &[]);
                if blocks > 0 {
                    let (room, values) = (blocks - 1, [blocks, blocks - 1]);
                    check(opening, pair, input, room, 4, values, &[]);
                }
            }
            let (values, early) = ([last + tag, last + tag - 1], &sealed[..blocks]);
            check(false, pair, &message, whole - 1, 4, values, early);
            if n > 0 {
                let (values, early) = ([last, last - 1], &message[..blocks]);
                check(true, pair, &sealed, n - 1, 4, values, early);
            }
            for came in [0, 1, tag - 1] {
                check(true, pair, &sealed[..came], n, 5, [tag, came], &[]);
            }
            sealed[n] ^= 1;
            let mut left = message.clone();
            left[blocks..].fill(0);
            check(true, pair, &sealed, n + 9, 6, [0, 0], &left);
        }
    }
}
