//! The rows of docs/DIFFERENCES.md, section 1, that an engine's calls can show,
//! each on its smallest list: both sides answer as the row says. The rows on
//! the permutation are shown in rust/vectors and rust/oracle.

use differential::compare;
use replay::boundary::{call_list, expected};
use replay::calls::{Answer, Call, PANICKED, Start, VARIANTS, no, ok, sealed};
use replay::recorder::{List, Recorder};
use tc_aead_cipher::{AeadCipher, AeadCipherInit, AeadError, AeadInitError, AeadParamsRef};
use tc_block_cipher::CipherDirection;
use tc_sparkle_aead::{SparkleEngine, SparkleVariant};

/// The port's answers to a list's calls.
fn port(list: &List) -> Vec<Answer> {
    let calls = call_list(list);
    let mut answers = vec![0; calls.answers_len()];
    assert_eq!(host::run(calls.bytes(), &mut answers).code, 0);
    host::Answers(&answers)
        .map(|a| no(a.code, a.first as usize, a.second as usize))
        .collect()
}

/// The Rust's own answers.
fn original(list: &List) -> Vec<Answer> {
    list.calls.iter().map(|played| played.original).collect()
}

fn start(variant: SparkleVariant, opening: bool, header: usize) -> Start {
    Start {
        opening,
        key: vec![1; variant.key_bytes()],
        nonce: vec![2; variant.nonce_bytes()],
        size: variant.tag_bytes(),
        header: vec![3; header],
    }
}

/// A start for opening with a header, and an end.
fn end_in_opening_aad(variant: SparkleVariant, header: usize) -> List {
    let mut r = Recorder::new(0);
    r.list(variant);
    r.init(&start(variant, true, header));
    r.end(0);
    r.take().remove(0)
}

/// "an end in opening Aad", variant 1, a header of 1 byte: the Rust reports
/// that count as actual, the port 0.
#[test]
fn end_in_opening_aad_below_a_tag() {
    let mut engine = SparkleEngine::new(SparkleVariant::Schwaemm128_128);
    let params = AeadParamsRef::new(&[1; 16], &[2; 16], 16, &[3; 1]);
    engine.init(CipherDirection::Decrypt, &params).unwrap();
    let actual = AeadError::CiphertextTooShort {
        minimum: 16,
        actual: 1,
    };
    assert_eq!(engine.do_final(&mut []), Err(actual));

    let list = end_in_opening_aad(SparkleVariant::Schwaemm128_128, 1);
    assert_eq!(original(&list), [ok(0), no(5, 16, 1)]);
    assert_eq!(port(&list), [ok(0), no(5, 16, 0)]);
}

/// The same with a header of a tag's length: the Rust panics, in debug and in
/// release.
#[test]
fn end_in_opening_aad_at_a_tag() {
    let list = end_in_opening_aad(SparkleVariant::Schwaemm128_128, 16);
    assert_eq!(original(&list), [ok(0), no(PANICKED, 0, 0)]);
    assert_eq!(port(&list), [ok(0), no(5, 16, 0)]);
}

/// The same in every variant, for every length of the held header.
#[test]
fn end_in_opening_aad_in_every_variant() {
    for variant in VARIANTS {
        let (rate, tag) = (variant.nonce_bytes(), variant.tag_bytes());
        for header in 1..=2 * rate + 1 {
            let list = end_in_opening_aad(variant, header);
            let held = (header - 1) % rate + 1;
            let rust = if held < tag {
                no(5, tag, held)
            } else {
                no(PANICKED, 0, 0)
            };
            assert_eq!(original(&list), [ok(0), rust]);
            assert_eq!(port(&list), [ok(0), no(5, tag, 0)]);
        }
    }
}

/// That end changes nothing in the port: a packet opens after it, and every
/// other answer is the one of the list without that end.
#[test]
fn end_in_opening_aad_changes_nothing() {
    for variant in VARIANTS {
        let begin = start(variant, true, variant.nonce_bytes());
        let message = vec![4; 2 * variant.nonce_bytes() + 1];
        let packet = sealed(variant, &begin, &[], &message);
        let mut r = Recorder::new(0);
        r.list(variant);
        r.init(&begin);
        r.end(5);
        r.data_exact(&packet);
        assert_eq!(r.end_exact().0.code, 0);
        r.mac();
        let mut with = r.take().remove(0);
        compare(&host::run, &with, 3).unwrap();
        with.calls.remove(1);
        let calls: Vec<Call> = with.calls.iter().map(|p| p.call.clone()).collect();
        r.list(variant);
        for call in calls {
            r.call(call);
        }
        let without = r.take().remove(0);
        compare(&host::run, &without, 3).unwrap();
        assert_eq!(expected(&with), expected(&without));
    }
}

/// 'the words "previous init" for 11': both sides compare with the last loaded
/// pair, whatever init came last.
#[test]
fn previous_init_is_the_last_loaded_pair() {
    let variant = SparkleVariant::Schwaemm128_128;
    let mut engine = SparkleEngine::new(variant);
    let one = AeadParamsRef::new(&[1; 16], &[2; 16], 16, &[]);
    let refused = AeadParamsRef::new(&[9; 16], &[9; 16], 15, &[]);
    engine.init(CipherDirection::Encrypt, &one).unwrap();
    let wrong_size = AeadInitError::InvalidMacSize { actual: 15 };
    let answer = engine.init(CipherDirection::Encrypt, &refused);
    assert_eq!(answer, Err(wrong_size));
    let answer = engine.init(CipherDirection::Encrypt, &one);
    assert_eq!(answer, Err(AeadInitError::NonceReuse));

    let mut r = Recorder::new(0);
    r.list(variant);
    let one = start(variant, false, 0);
    r.init(&one);
    r.init(&Start {
        key: vec![9; 16],
        nonce: vec![9; 16],
        size: 15,
        ..one.clone()
    });
    r.init(&one);
    let list = r.take().remove(0);
    let answers = [ok(0), no(3, 15, 0), no(11, 0, 0)];
    assert_eq!(original(&list), answers);
    assert_eq!(port(&list), answers);
}
