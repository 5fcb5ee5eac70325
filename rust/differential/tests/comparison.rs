//! The comparison itself: a port that is wrong in one thing is found out, and
//! shown by a small list.

use differential::{compare, smallest};
use host::Ran;
use replay::boundary::expected;
use replay::calls::{Start, VARIANTS};
use replay::recorder::{List, Recorder};

/// A list with a header, data, a refused and a successful end, and the tag.
fn sealing() -> List {
    let mut r = Recorder::new(7);
    r.list(VARIANTS[0]);
    r.mac();
    let start = Start {
        opening: false,
        key: vec![1; 16],
        nonce: vec![2; 16],
        size: 16,
        header: Vec::new(),
    };
    r.init(&start);
    r.aad(&[5; 20]);
    r.data(&[6; 33], 40);
    r.end(16);
    r.end(20);
    r.mac();
    r.take().remove(0)
}

/// Where each answer begins.
fn places(list: &List) -> Vec<usize> {
    let answers = expected(list);
    let mut places = vec![0];
    for answer in host::Answers(&answers) {
        places.push(places[places.len() - 1] + host::ANSWER_HEAD + answer.bytes.len());
    }
    assert_eq!(places.len(), list.calls.len() + 1);
    places
}

#[test]
fn the_right_port_passes() {
    compare(&host::run, &sealing(), 0).unwrap();
    compare(&host::run, &sealing(), 9).unwrap();
}

/// Any byte of any answer that is another one, and any byte behind them.
#[test]
fn every_byte_counts() {
    let list = sealing();
    for at in 0..*places(&list).last().unwrap() + 3 {
        let wrong = |calls: &[u8], answers: &mut [u8]| {
            let ran = host::run(calls, answers);
            answers[at] ^= 1;
            ran
        };
        assert!(compare(&wrong, &list, 3).is_err(), "byte {at}");
    }
}

#[test]
fn code_and_place_count() {
    let list = sealing();
    let code = |calls: &[u8], answers: &mut [u8]| Ran {
        code: 21,
        ..host::run(calls, answers)
    };
    assert!(compare(&code, &list, 0).is_err());
    let place = |calls: &[u8], answers: &mut [u8]| Ran {
        place: 1,
        ..host::run(calls, answers)
    };
    assert!(compare(&place, &list, 0).is_err());
}

/// A port that counts a step too many once a message has ended: what is shown
/// is the start and the end, nothing else.
#[test]
fn the_smallest_list_is_shown() {
    let wrong = |calls: &[u8], answers: &mut [u8]| {
        let ran = host::run(calls, answers);
        let read: Vec<u8> = host::Answers(answers).map(|a| a.readable).collect();
        let mut at = 0;
        for readable in read {
            answers[at + 18] += readable;
            let bytes = answers[at + 26..at + 34].try_into().unwrap();
            at += host::ANSWER_HEAD + u64::from_le_bytes(bytes) as usize;
        }
        ran
    };
    let list = sealing();
    assert!(compare(&wrong, &list, 0).is_err());
    let text = smallest(&wrong, &list);
    let lines: Vec<&str> = text.lines().collect();
    assert_eq!(
        lines[0],
        "the shortest prefix has 6 calls; of them these are needed:"
    );
    assert_eq!(lines[1], "(variant 1)");
    assert!(lines[2].starts_with("(init seal (key 0101"), "{text}");
    assert_eq!(lines[3], "(final 20)");
    assert!(lines[4].starts_with("call 2: port "), "{text}");
}
