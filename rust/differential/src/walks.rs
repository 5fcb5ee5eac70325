//! Random lists. Lengths lie around the boundaries of a block and of what an
//! opening holds back; packets to open are right or damaged; calls come in
//! every phase.

use replay::calls::{Call, Start, VARIANTS, sealed};
use replay::recorder::{Phase, Recorder};
use tc_sparkle_aead::SparkleVariant;

/// A length at or next to a boundary of the variant; seldom any length up to
/// many blocks.
pub fn length(r: &mut Recorder) -> usize {
    if r.random.once_in(64) {
        return r.random.below(3000);
    }
    let (rate, tag) = (r.rate(), r.tag());
    let blocks = r.random.below(6);
    let at = r.random.pick(&[
        0,
        tag,
        rate,
        rate + tag,
        2 * rate,
        2 * rate + tag,
        blocks * rate,
        blocks * rate + tag,
    ]);
    (at + r.random.pick(&[0, 1, 2])).saturating_sub(1)
}

/// A length that is not `right`, or seldom is.
pub fn wrong_length(r: &mut Recorder, right: usize) -> usize {
    let far = r.random.below(70);
    r.random.pick(&[
        0,
        1,
        right - 1,
        right + 1,
        2 * right,
        16,
        24,
        32,
        48,
        right + far,
    ])
}

/// An output's length beside what is needed: too short by one, exact, longer.
pub fn room(r: &mut Recorder, needed: usize) -> usize {
    let more = r.random.below(40);
    let short = needed.saturating_sub(1);
    r.random.pick(&[
        needed,
        needed,
        needed,
        needed,
        needed + 1,
        needed + more,
        short,
        short,
        needed / 2,
        0,
    ])
}

/// Damages what `sealed` made: a bit of the tag or of the body, bytes missing
/// or too many.
pub fn damage(r: &mut Recorder, packet: &mut Vec<u8>) {
    let (tag, whole) = (r.tag(), packet.len());
    let bit = 1 << r.random.below(8);
    match r.random.below(5) {
        0 => packet[whole - 1 - r.random.below(tag)] ^= bit,
        1 => packet[r.random.below(whole)] ^= bit,
        2 => packet.truncate(whole - 1),
        3 => packet.truncate(r.random.below(whole)),
        _ => packet.push(bit),
    }
}

/// A random list on one variant, and what is on its way to be opened.
struct Walk {
    pool: Vec<Start>,
    packet: Vec<u8>,
    at: usize,
}

/// Adds a random list.
pub fn walk(r: &mut Recorder) {
    let variant = r.random.pick(&VARIANTS);
    r.list(variant);
    let mut walk = Walk {
        pool: pool(r, variant),
        packet: Vec::new(),
        at: 0,
    };
    let calls = 1 + r.random.below(24);
    let strays = r.random.pick(&[2, 4, 8]);
    let read_always = r.random.once_in(8);
    for _ in 0..calls {
        if r.random.once_in(strays) {
            walk.stray(r);
        } else {
            walk.go_on(r);
        }
        if read_always {
            r.mac();
        }
    }
}

/// A few pairs, so that they come again; two that differ in a bit.
fn pool(r: &mut Recorder, variant: SparkleVariant) -> Vec<Start> {
    let zeros = r.random.once_in(4);
    let mut bytes = |n| if zeros { vec![0; n] } else { r.random.bytes(n) };
    let one = Start {
        opening: false,
        key: bytes(variant.key_bytes()),
        nonce: bytes(variant.nonce_bytes()),
        size: variant.tag_bytes(),
        header: Vec::new(),
    };
    let mut two = one.clone();
    let half = if r.random.once_in(2) {
        &mut two.key
    } else {
        &mut two.nonce
    };
    let at = r.random.below(half.len());
    half[at] ^= 1 << r.random.below(8);
    vec![one.clone(), one, two]
}

impl Walk {
    /// A start; one in eight has a wrong length of key, nonce or tag, or of
    /// several.
    fn init(&mut self, r: &mut Recorder) {
        let mut start = self.pool[r.random.below(self.pool.len())].clone();
        start.opening = r.random.once_in(2);
        if r.random.once_in(2) {
            let n = length(r);
            start.header = r.random.bytes(n);
        }
        if r.random.once_in(8) {
            let which = 1 + r.random.below(7);
            if which & 1 != 0 {
                let n = wrong_length(r, start.key.len());
                start.key = r.random.bytes(n);
            }
            if which & 2 != 0 {
                let n = wrong_length(r, start.nonce.len());
                start.nonce = r.random.bytes(n);
            }
            if which & 4 != 0 {
                let n = wrong_length(r, start.size);
                start.size = r.random.pick(&[n, n, 8 * start.size, usize::MAX]);
            }
        }
        r.init(&start);
        self.at = 0;
    }

    fn aad(&mut self, r: &mut Recorder) {
        let n = length(r);
        let input = r.random.bytes(n);
        r.aad(&input);
    }

    /// The bytes of the next data call.
    fn input(&mut self, r: &mut Recorder) -> Vec<u8> {
        if r.opening && r.start.is_some() && !r.random.once_in(10) {
            if r.phase != Phase::Data || self.packet.is_empty() {
                self.at = 0;
                if !r.random.once_in(4) || self.packet.is_empty() {
                    self.packet = packet(r);
                }
            }
            let left = self.packet.len() - self.at.min(self.packet.len());
            let n = match r.random.below(4) {
                0 => length(r).min(left),
                1 => 1.min(left),
                _ => left,
            };
            let from = self.packet.len() - left;
            return self.packet[from..from + n].to_vec();
        }
        let n = match r.random.below(4) {
            0 => 1,
            1 => length(r).saturating_sub(r.data % r.rate()),
            _ => length(r),
        };
        r.random.bytes(n)
    }

    fn data(&mut self, r: &mut Recorder) {
        let input = self.input(r);
        let needed = r.needed(input.len());
        let room = room(r, needed);
        if r.data(&input, room).0.code == 0 {
            self.at += input.len();
        }
    }

    fn end(&mut self, r: &mut Recorder) {
        let needed = r.needed_at_end();
        let room = room(r, needed);
        r.end(room);
    }

    /// The next call of a message.
    fn go_on(&mut self, r: &mut Recorder) {
        let turn = r.random.below(8);
        match r.phase {
            Phase::Uninitialized | Phase::Final => self.init(r),
            Phase::Init | Phase::Aad if turn < 3 => self.aad(r),
            Phase::Init | Phase::Aad if turn == 3 => self.end(r),
            Phase::Init | Phase::Aad => self.data(r),
            Phase::Data if r.opening && self.at < self.packet.len() && turn < 6 => self.data(r),
            Phase::Data if turn < 3 => self.data(r),
            Phase::Data => self.end(r),
        }
    }

    /// Any call in any phase.
    fn stray(&mut self, r: &mut Recorder) {
        match r.random.below(12) {
            0 => self.init(r),
            1 => self.aad(r),
            2 => {
                r.aad(&[]);
            }
            3 => self.data(r),
            4 => {
                let room = r.random.below(3);
                r.data(&[], room);
            }
            5 => self.end(r),
            6 | 7 => r.reset(),
            8 | 9 => r.mac(),
            10 => {
                let n = number(r);
                r.call(Call::UpdateOutputLen(n));
            }
            _ => {
                let n = number(r);
                r.call(Call::OutputLen(n));
            }
        }
    }
}

/// A query's number: small, or next to where a sum passes 2^64 - 1.
fn number(r: &mut Recorder) -> usize {
    let near = length(r);
    let held = if r.phase == Phase::Data {
        r.data % (r.rate() + r.tag())
    } else {
        0
    };
    let least = usize::MAX - r.random.below(4);
    r.random.pick(&[
        near,
        near,
        r.tag(),
        least,
        least - r.tag(),
        least - held,
        least - held - r.tag(),
        usize::MAX - near,
        1 << 63,
    ])
}

/// A packet for what was loaded and the header so far; every second one is
/// damaged, in its header too.
fn packet(r: &mut Recorder) -> Vec<u8> {
    let start = r.start.clone().expect("an opening has begun");
    let mut header = r.header[start.header.len()..].to_vec();
    let wrong_header = r.random.once_in(10);
    if wrong_header {
        header.push(0);
    }
    let n = length(r);
    let message = r.random.bytes(n);
    let mut packet = sealed(r.variant, &start, &header, &message);
    if !wrong_header && r.random.once_in(2) {
        damage(r, &mut packet);
    }
    packet
}
