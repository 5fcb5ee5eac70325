//! The file that the program `replay` of the port reads.
//!
//! It has, for each list, the list's length, the list, the length of its
//! answers, and the answers that the port has to write, both byte for byte as
//! docs/HOST.md says. Behind the last list stand a length of 0, the number of
//! lists and the number of calls, and nothing more. Every number has eight
//! bytes, the lowest first.

use crate::boundary::{call_list, expected};
use crate::calls::Call;
use crate::recorder::{List, play};

/// The room that the program of the port has for a list, and for its answers
/// with a byte behind them.
const ROOM: usize = 8192;

/// The list with its tags read: wherever a tag can be read after a call, that
/// call or the one behind it is `mac`.
pub fn tags_read(list: &List) -> List {
    let mut calls = Vec::new();
    for (i, played) in list.calls.iter().enumerate() {
        calls.push(&played.call);
        let next = list.calls.get(i + 1).map(|next| &next.call);
        let read = played.call == Call::Mac || next == Some(&Call::Mac);
        if played.tag.is_some() && !read {
            calls.push(&Call::Mac);
        }
    }
    play(list.variant, calls)
}

fn number(n: usize, file: &mut Vec<u8>) {
    file.extend((n as u64).to_le_bytes());
}

/// The file of these lists.
///
/// # Panics
///
/// Where the program of the port has no room for a list or its answers.
pub fn file(lists: &[List]) -> Vec<u8> {
    let mut file = Vec::new();
    for list in lists {
        let (calls, answers) = (call_list(list), expected(list));
        assert!(calls.bytes().len() <= ROOM && answers.len() < ROOM);
        for bytes in [calls.bytes(), &answers] {
            number(bytes.len(), &mut file);
            file.extend(bytes);
        }
    }
    let calls = lists.iter().map(|list| list.calls.len()).sum();
    for end in [0, lists.len(), calls] {
        number(end, &mut file);
    }
    file
}
