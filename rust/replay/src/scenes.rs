//! The call lists: one kind of scene after the other, on every variant.

use tc_sparkle_aead::SparkleVariant;

use crate::calls::{Start, VARIANTS, sealed};
use crate::kat::{self, ENTRIES};
use crate::recorder::{Phase, Recorder};

/// The phases that a list can be brought to.
const PHASES: [Phase; 5] = [
    Phase::Uninitialized,
    Phase::Init,
    Phase::Aad,
    Phase::Data,
    Phase::Final,
];

/// Everything but the known answers, in a fixed order.
pub fn all(r: &mut Recorder) {
    for variant in VARIANTS {
        round_trips(r, variant);
        damaged(r, variant);
        short_ciphertexts(r, variant);
        refused_starts(r, variant);
        reuse(r, variant);
        rooms(r, variant);
        every_phase(r, variant);
        resets(r, variant);
        interrupted(r, variant);
        without_data(r, variant);
        for _ in 0..20 {
            walk(r, variant);
        }
    }
}

/// Ten entries of each known-answer file, the first and the last among them,
/// sealed and opened in pieces. Each has to come out as the file says.
pub fn known_answers(r: &mut Recorder) {
    for variant in VARIANTS {
        let entries = kat::entries(variant);
        for turn in 0..10 {
            let entry = &entries[turn * (ENTRIES - 1) / 9];
            let initial = if turn % 2 == 0 { 0 } else { entry.header.len() };
            let (first, later) = entry.header.split_at(initial);
            r.list(variant);
            let seal = Start {
                opening: false,
                key: entry.key.clone(),
                nonce: entry.nonce.clone(),
                size: r.tag(),
                header: first.to_vec(),
            };
            r.init(&seal);
            let mut packet = feed(r, later, &entry.message);
            packet.extend(r.end_exact().1);
            assert_eq!(packet, entry.packet);
            r.mac();
            r.init(&opening(&seal));
            let mut message = feed(r, later, &entry.packet);
            message.extend(r.end_exact().1);
            assert_eq!(message, entry.message);
            r.mac();
        }
    }
}

/// A start with the variant's sizes.
fn start(r: &mut Recorder, opening: bool, header: usize) -> Start {
    Start {
        opening,
        key: r.random.bytes(r.variant.key_bytes()),
        nonce: r.random.bytes(r.rate()),
        size: r.tag(),
        header: r.random.bytes(header),
    }
}

fn opening(start: &Start) -> Start {
    Start {
        opening: true,
        ..start.clone()
    }
}

/// Lengths around the boundaries of a block and of what an opening holds.
fn lengths(r: &Recorder) -> Vec<usize> {
    let (rate, tag) = (r.rate(), r.tag());
    vec![
        0,
        1,
        rate - 1,
        rate,
        rate + 1,
        rate + tag - 1,
        rate + tag,
        rate + tag + 1,
        2 * rate - 1,
        2 * rate + 1,
        3 * rate,
        3 * rate + tag + 1,
        5 * rate + 7,
    ]
}

/// Header and data in pieces, each into the output that it needs or more.
fn feed(r: &mut Recorder, header: &[u8], data: &[u8]) -> Vec<u8> {
    let mut out = Vec::new();
    for piece in r.random.pieces(header) {
        r.aad(piece);
    }
    for piece in r.random.pieces(data) {
        let more = r.random.pick(&[0, 0, 1, 7]);
        let room = r.needed(piece.len()) + more;
        out.extend(r.data(piece, room).1);
    }
    out
}

/// Seals a message of each length in pieces, reads the tag and opens it again.
fn round_trips(r: &mut Recorder, variant: SparkleVariant) {
    r.list(variant);
    for (i, length) in lengths(r).into_iter().enumerate() {
        if i > 0 {
            r.list(variant);
        }
        let first = r.random.pick(&lengths(r)[..8]);
        let later = r.random.pick(&[0, 0, 1, r.rate(), r.rate() + 1]);
        let (header, message) = (r.random.bytes(later), r.random.bytes(length));
        let seal = start(r, false, if i % 3 == 0 { 0 } else { first });
        r.init(&seal);
        let mut out = feed(r, &header, &message);
        r.mac();
        let room = r.needed_at_end() + r.random.pick(&[0, 3]);
        out.extend(r.end(room).1);
        assert_eq!(out, sealed(variant, &seal, &header, &message));
        r.mac();
        r.init(&opening(&seal));
        r.mac();
        let mut back = feed(r, &header, &out);
        let room = r.needed_at_end() + r.random.pick(&[0, 5]);
        back.extend(r.end(room).1);
        assert_eq!(back, message);
        r.mac();
        r.reset();
        r.aad(&header);
        let room = r.needed(out.len());
        let mut again = r.data(&out, room).1;
        again.extend(r.end_exact().1);
        assert_eq!(again, message);
    }
}

/// Opens messages whose tag, body or header is damaged, then the right one.
fn damaged(r: &mut Recorder, variant: SparkleVariant) {
    for kind in 0..6 {
        r.list(variant);
        let length = [1, r.rate() - 1, r.rate(), r.rate() + 1, 2 * r.rate() + 5, 0][kind];
        let (header, message) = (r.random.bytes(kind), r.random.bytes(length));
        let open = start(r, true, kind % 2);
        let good = sealed(variant, &open, &header, &message);
        r.init(&open);
        for turn in 0..3 {
            let mut bad = good.clone();
            let at = match turn {
                0 => bad.len() - 1,
                1 => length,
                _ => r.random.below(bad.len()),
            };
            bad[at] ^= 1 << r.random.below(8);
            feed(r, &header, &bad);
            let room = r.needed_at_end() + turn * 4;
            assert_eq!(r.end(room).0.code, 6);
            r.mac();
            r.end(room);
            r.reset();
        }
        feed(r, &[&header[..], &[1]].concat(), &good);
        assert_eq!(r.end_exact().0.code, 6);
        r.reset();
        feed(r, &header, &good);
        assert_eq!(r.end_exact().0.code, 0);
        r.mac();
    }
}

/// Openings that end with fewer bytes than a tag, and then with more of them.
fn short_ciphertexts(r: &mut Recorder, variant: SparkleVariant) {
    for header in [0, 1, 40] {
        r.list(variant);
        let open = start(r, true, header);
        let good = sealed(variant, &open, &[], b"ore");
        r.init(&open);
        for room in [0, 1, 40] {
            r.end(room);
        }
        r.data_exact(&[]);
        r.end(0);
        r.data_exact(&good[..1]);
        r.end(2);
        let tag = r.tag();
        r.data_exact(&good[1..tag - 1]);
        r.end_exact();
        r.data_exact(&good[tag - 1..tag]);
        let early = r.random.once_in(2);
        if early {
            r.end_exact();
            r.reset();
            r.data_exact(&good[..tag]);
        }
        r.data_exact(&good[tag..]);
        r.end(2);
        r.end(3);
        r.mac();
        r.end(3);
    }
}

/// Starts with wrong lengths of key, nonce and tag, alone and together.
fn refused_starts(r: &mut Recorder, variant: SparkleVariant) {
    for opening in [false, true] {
        r.list(variant);
        let good = start(r, opening, 2);
        let (key, nonce, tag) = (good.key.len(), good.nonce.len(), r.tag());
        for wrong in [0, 1, key - 1, key + 1, 16, 24, 32, 48, 300] {
            let key = r.random.bytes(wrong);
            r.init(&Start {
                key,
                ..good.clone()
            });
            r.mac();
        }
        r.init(&good);
        r.aad(b"kept out");
        for wrong in [0, nonce - 1, nonce + 1, 12, 16, 24, 32, 64] {
            let nonce = r.random.bytes(wrong);
            r.init(&Start {
                nonce,
                ..good.clone()
            });
        }
        r.data_exact(b"no message");
        r.list(variant);
        for size in [0, 1, tag - 1, tag + 1, 16, 24, 32, 8 * tag, usize::MAX] {
            r.init(&Start {
                size,
                ..good.clone()
            });
            r.end(40);
        }
        let (wrong_key, wrong_nonce) = (r.random.bytes(key + 8), r.random.bytes(nonce + 8));
        let nonces = [wrong_nonce, good.nonce.clone()];
        for (nonce, size) in [(0, 0), (0, tag), (1, 0)] {
            for key in [&wrong_key, &good.key] {
                r.init(&Start {
                    opening,
                    key: key.clone(),
                    nonce: nonces[nonce].clone(),
                    size,
                    header: good.header.clone(),
                });
                r.aad(b"x");
            }
        }
        r.init(&good);
        r.data_exact(b"a message after all");
    }
}

/// Sealing with the last loaded pair, after openings and refused starts too.
fn reuse(r: &mut Recorder, variant: SparkleVariant) {
    for turn in 0..3 {
        r.list(variant);
        let mut one = start(r, false, turn);
        if turn == 0 {
            // an all-zero pair is no repeat on a new engine
            one.key.fill(0);
            one.nonce.fill(0);
        }
        let mut two = one.clone();
        let last = two.nonce.len() - 1;
        two.nonce[last] ^= 0x80;
        let mut three = one.clone();
        three.key[turn] ^= 1;
        r.init(&one);
        r.data_exact(b"the first message");
        r.end_exact();
        assert_eq!(r.init(&one).code, 11);
        r.mac();
        r.data_exact(b"");
        assert_eq!(r.init(&one).code, 11);
        r.init(&Start {
            size: 1,
            ..two.clone()
        });
        assert_eq!(r.init(&one).code, 11);
        assert_eq!(r.init(&two).code, 0);
        assert_eq!(r.init(&one).code, 0);
        assert_eq!(r.init(&opening(&one)).code, 0);
        assert_eq!(r.init(&opening(&one)).code, 0);
        assert_eq!(r.init(&one).code, 11);
        r.init(&opening(&three));
        r.reset();
        assert_eq!(r.init(&three).code, 11);
        r.init(&one);
        r.reset();
        r.data_exact(b"under the same pair, once");
        r.reset();
        assert_eq!(r.init(&one).code, 11);
    }
}

/// Outputs that are too short, exact and longer, at each data call and end.
fn rooms(r: &mut Recorder, variant: SparkleVariant) {
    for turn in 0..6 {
        r.list(variant);
        let opens = turn % 2 == 1;
        let (rate, tag) = (r.rate(), r.tag());
        let length = [rate + 1, 3 * rate, 4 * rate + 3][turn / 2];
        let begin = start(r, opens, turn);
        let message = r.random.bytes(length);
        let data = if opens {
            sealed(variant, &begin, &[], &message)
        } else {
            message
        };
        r.init(&begin);
        let cut = r
            .random
            .pick(&[1, rate, rate + tag, length - 1])
            .min(data.len());
        for part in [&data[..cut], &data[cut..]] {
            let need = r.needed(part.len());
            for room in [0, need / 2, need.saturating_sub(1)] {
                if room < need {
                    r.data(part, room);
                    r.mac();
                }
            }
            r.data(part, need + turn / 2 * 9);
        }
        let need = r.needed_at_end();
        for room in [0, need / 2, need.saturating_sub(1)] {
            if room < need {
                r.end(room);
                r.mac();
            }
        }
        r.end(need + turn / 2 * 11);
        r.mac();
    }
}

/// A list that is brought to a phase and a direction.
fn bring(r: &mut Recorder, variant: SparkleVariant, phase: Phase, opens: bool, initial: bool) {
    r.list(variant);
    if phase == Phase::Uninitialized {
        return;
    }
    let begin = start(r, opens, if initial { 3 } else { 0 });
    let message = r.random.bytes(r.rate() + 2);
    let header: &[u8] = if phase == Phase::Init { b"" } else { b"fields" };
    let data = if opens {
        sealed(variant, &begin, header, &message)
    } else {
        message
    };
    r.init(&begin);
    r.aad(header);
    if matches!(phase, Phase::Data | Phase::Final) {
        r.data_exact(&data);
    }
    if phase == Phase::Final {
        r.end_exact();
    }
}

/// In every phase the calls that are refused or change nothing, and both
/// queries with numbers up to the largest.
fn every_phase(r: &mut Recorder, variant: SparkleVariant) {
    for phase in PHASES {
        for opens in [false, true] {
            let initial = r.random.once_in(2) && phase != Phase::Init;
            bring(r, variant, phase, opens, initial);
            let (rate, tag) = (r.rate(), r.tag());
            r.aad(b"");
            for n in [0, 1, rate - 2, rate - 1, rate, rate + 1] {
                r.lengths(n);
            }
            for n in [tag, rate + tag - 1, rate + tag, rate + tag + 1, 500] {
                r.lengths(n);
            }
            let held = rate + 2 + tag;
            for back in [0, 1, 2, 3, tag - 1, tag, tag + 1, tag + 2, tag + 3, held] {
                r.lengths(usize::MAX - back);
            }
            r.mac();
            let refused = matches!(phase, Phase::Uninitialized | Phase::Final);
            if refused || phase == Phase::Data {
                r.aad(b"y");
            }
            if refused {
                r.data(b"", 0);
                r.data(b"some bytes", 40);
                r.end(0);
                r.end(70);
            }
            r.mac();
            r.reset();
            r.mac();
            r.lengths(usize::MAX);
        }
    }
}

/// A reset in every phase, with and without an initial header, and a whole
/// message after it where one can follow.
fn resets(r: &mut Recorder, variant: SparkleVariant) {
    for phase in PHASES {
        for opens in [false, true] {
            bring(r, variant, phase, opens, opens || phase == Phase::Aad);
            r.reset();
            r.mac();
            r.reset();
            r.aad(b"fields");
            r.data_exact(b"");
            let message = r.random.bytes(2 * r.rate());
            let need = r.needed(message.len());
            r.data(&message, need);
            r.end(64);
            r.mac();
            r.reset();
            r.end(64);
        }
    }
}

/// A start in every phase, refused and taken, each of which ends the message.
fn interrupted(r: &mut Recorder, variant: SparkleVariant) {
    for phase in PHASES {
        for opens in [false, true] {
            bring(r, variant, phase, opens, false);
            let next = start(r, !opens, 1);
            if r.random.once_in(2) {
                r.init(&Start {
                    size: 0,
                    ..next.clone()
                });
                r.mac();
                r.data_exact(b"");
                r.reset();
                r.end(40);
            }
            r.init(&next);
            r.mac();
            r.data_exact(b"another message, of more than a block's bytes");
            r.end(64);
        }
    }
}

/// Ends with no data call before them: empty messages, and openings that are
/// too short.
fn without_data(r: &mut Recorder, variant: SparkleVariant) {
    for phase in [Phase::Init, Phase::Aad] {
        for opens in [false, true] {
            bring(r, variant, phase, opens, false);
            let need = r.needed_at_end();
            for room in [need.saturating_sub(1), need, need + 4] {
                r.end(room);
                r.mac();
            }
            r.data_exact(b"");
            r.end_exact();
        }
    }
}

/// What a walk means to do next.
struct Plan {
    begin: Start,
    header: Vec<u8>,
    data: Vec<u8>,
    header_at: usize,
    data_at: usize,
}

fn plan(r: &mut Recorder, pool: &[Start]) -> Plan {
    let mut begin = pool[r.random.below(pool.len())].clone();
    begin.opening = r.random.once_in(2);
    let first = r.random.pick(&[0, 0, 1, r.rate(), r.rate() + 1]);
    begin.header = r.random.bytes(first);
    let (many, later) = (lengths(r), r.random.pick(&[0, 1, 20, 33]));
    let header = r.random.bytes(later);
    let length = r.random.pick(&many[..12]);
    let mut data = r.random.bytes(length);
    if begin.opening {
        data = sealed(r.variant, &begin, &header, &data);
        if r.random.once_in(4) {
            let at = r.random.below(data.len());
            data[at] ^= 1 << r.random.below(8);
        }
    }
    Plan {
        begin,
        header,
        data,
        header_at: 0,
        data_at: 0,
    }
}

/// The next call of the plan, by the phase.
fn go_on(r: &mut Recorder, p: &mut Plan) {
    let rest = p.header.len() - p.header_at;
    if rest > 0 && r.phase != Phase::Data {
        let n = 1 + r.random.below(rest);
        r.aad(&p.header[p.header_at..p.header_at + n]);
        p.header_at += n;
        return;
    }
    let rest = p.data.len() - p.data_at;
    if rest > 0 {
        let n = if r.random.once_in(2) {
            rest
        } else {
            1 + r.random.below(rest)
        };
        let need = r.needed(n);
        let room = r
            .random
            .pick(&[need, need, need + 5, need.saturating_sub(1)]);
        if r.data(&p.data[p.data_at..p.data_at + n], room).0.code == 0 {
            p.data_at += n;
        }
        return;
    }
    let need = r.needed_at_end();
    let room = r
        .random
        .pick(&[need, need, need + 5, need.saturating_sub(1)]);
    r.end(room);
}

/// A call that is not in the plan. A reset starts the plan again.
fn stray(r: &mut Recorder, p: &mut Plan) {
    match r.random.below(9) {
        0 => {
            let n = r.random.below(100);
            r.lengths(n);
        }
        1 => {
            let n = r.random.below(100);
            r.lengths(usize::MAX - n);
        }
        2 | 3 => r.mac(),
        4 | 5 => {
            r.reset();
            (p.header_at, p.data_at) = (0, 0);
        }
        6 => {
            r.aad(b"");
        }
        7 => {
            let n = r.random.below(2);
            r.aad(&b"z"[..n]);
        }
        _ => {
            let room = r.random.below(70);
            if r.phase != Phase::Init || !r.random.once_in(2) {
                r.end(room);
            } else {
                r.data(b"", room);
            }
        }
    }
}

/// A list of random calls over a few pairs, so that repeats come up.
fn walk(r: &mut Recorder, variant: SparkleVariant) {
    r.list(variant);
    let mut pool = vec![start(r, false, 0), start(r, false, 0)];
    let mut third = pool[0].clone();
    third.nonce[0] ^= 1;
    pool.push(third);
    let mut p = plan(r, &pool);
    for _ in 0..10 + r.random.below(8) {
        if r.random.once_in(3) {
            stray(r, &mut p);
        } else if matches!(r.phase, Phase::Uninitialized | Phase::Final) {
            p = plan(r, &pool);
            let mut begin = p.begin.clone();
            match r.random.below(12) {
                0 => begin.key.truncate(3),
                1 => begin.nonce.push(9),
                2 => begin.size += 1,
                _ => {}
            }
            r.init(&begin);
        } else {
            go_on(r, &mut p);
        }
    }
}
