//! What the program has to print, by `reader` and by the Rust original. Where
//! original and port are known to differ (docs/DIFFERENCES.md), document 01's
//! answer stands and the original is held to that page (`replay::recorder`), as
//! in the differential run.

use call_list::Direction;
use replay::boundary::expected;
use replay::calls::{self, Start, VARIANTS};
use replay::recorder::play;

use crate::calls::{Call, Calls};
use crate::reader::read;
use crate::writer::sheet_of;

/// The call as it is made on the original, with zeros in its output.
fn original(call: &Call) -> calls::Call {
    match call.clone() {
        Call::Init {
            way,
            key,
            nonce,
            size,
            header,
        } => calls::Call::Init(Start {
            opening: way == Direction::Opening,
            key,
            nonce,
            size: size as usize,
            header,
        }),
        Call::Aad { input } => calls::Call::Aad { input },
        Call::Data { input, output } => calls::Call::Data {
            input,
            output: vec![0; output],
        },
        Call::Final { output } => calls::Call::End {
            output: vec![0; output],
        },
        Call::Update(n) => calls::Call::UpdateOutputLen(n as usize),
        Call::Output(n) => calls::Call::OutputLen(n as usize),
        Call::Mac => calls::Call::Mac,
        Call::Reset => calls::Call::Reset,
    }
}

/// The sheet of the calls.
pub fn sheet(calls: &Calls) -> String {
    let variant = VARIANTS[usize::from(calls.variant) - 1];
    let made: Vec<calls::Call> = calls.calls.iter().map(original).collect();
    let list = play(variant, &made);
    sheet_of(calls, &expected(&list)).expect("each call has its answer")
}

/// What the program has to print for a file.
pub fn printed(file: &[u8]) -> String {
    match read(file) {
        Ok(calls) => sheet(&calls),
        Err(line) => format!("(no 12 {line})\n"),
    }
}
