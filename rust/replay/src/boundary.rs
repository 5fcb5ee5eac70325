//! A list and the answers that the port has to give, in the bytes of
//! docs/HOST.md.

use call_list::{Answer, Direction};

use crate::calls::{Call, variant_number};
use crate::recorder::{List, Played};

/// The list's calls.
pub fn call_list(list: &List) -> call_list::List {
    let mut to = call_list::List::new(variant_number(list.variant));
    for played in &list.calls {
        match &played.call {
            Call::Init(s) => {
                let way = if s.opening {
                    Direction::Opening
                } else {
                    Direction::Sealing
                };
                to.init(way, s.size as u64, &s.key, &s.nonce, &s.header);
            }
            Call::Aad { input } => to.process_aad_bytes(input),
            Call::Data { input, output } => to.process_bytes(input, output),
            Call::End { output } => to.do_final(output),
            Call::Reset => to.reset(),
            Call::Mac => to.mac(),
            Call::UpdateOutputLen(n) => to.update_output_len(*n as u64),
            Call::OutputLen(n) => to.output_len(*n as u64),
        }
    }
    to
}

/// The answers that the port has to write for a list.
pub fn expected(list: &List) -> Vec<u8> {
    let mut to = Vec::new();
    for played in &list.calls {
        write_expected(played, &mut to);
    }
    to
}

/// Appends the answer that the port has to write.
fn write_expected(played: &Played, to: &mut Vec<u8>) {
    let answer = Answer {
        code: played.answer.code,
        readable: u8::from(played.tag.is_some()),
        first: played.answer.values[0] as u64,
        second: played.answer.values[1] as u64,
        steps: played.steps,
        bytes: &given_back(played),
    };
    answer.write(to);
}

/// The bytes that an answer has behind its head.
fn given_back(played: &Played) -> Vec<u8> {
    if played.call == Call::Mac {
        let mut tag = played.tag.clone().unwrap_or_default();
        tag.resize(32, 0);
        tag
    } else {
        played.output.clone()
    }
}
