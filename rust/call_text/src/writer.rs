//! The writer: calls as text, and the sheet of their answers.

use std::fmt::Write;

use call_list::{Answer, Answers, Direction};

use crate::calls::{Call, Calls};
use crate::{FILE, OUTPUT};

/// Why calls have no text.
#[derive(Clone, Copy, Debug, PartialEq, Eq)]
pub enum Unwritten {
    /// The output of this call, counted from 1, is longer than [`OUTPUT`].
    Output(usize),
    /// The text would have so many bytes, more than [`FILE`].
    Length(usize),
}

/// Bytes in hexadecimal, `-` for none.
pub fn hexadecimal(bytes: &[u8]) -> String {
    if bytes.is_empty() {
        return "-".to_string();
    }
    let mut digits = String::with_capacity(2 * bytes.len());
    for byte in bytes {
        write!(digits, "{byte:02x}").unwrap();
    }
    digits
}

/// A call's form; `None` where its output is longer than [`OUTPUT`].
pub fn form_of(call: &Call) -> Option<String> {
    let word = call.word();
    let short = |output: &usize| (*output <= OUTPUT).then_some(*output);
    Some(match call {
        Call::Init {
            way,
            key,
            nonce,
            size,
            header,
        } => {
            let way = match way {
                Direction::Sealing => "seal",
                Direction::Opening => "open",
            };
            let [key, nonce, header] = [key, nonce, header].map(|bytes| hexadecimal(bytes));
            format!("({word} {way} (key {key}) (nonce {nonce}) (tag {size}) (header {header}))")
        }
        Call::Aad { input } => format!("({word} {})", hexadecimal(input)),
        Call::Data { input, output } => {
            format!("({word} {} {})", hexadecimal(input), short(output)?)
        }
        Call::Final { output } => format!("({word} {})", short(output)?),
        Call::Update(n) | Call::Output(n) => format!("({word} {n})"),
        Call::Mac | Call::Reset => format!("({word})"),
    })
}

/// The calls as a file, with its last newline.
pub fn text_of(calls: &Calls) -> Result<String, Unwritten> {
    let mut text = format!("(variant {})\n", calls.variant);
    for (i, call) in calls.calls.iter().enumerate() {
        text.push_str(&form_of(call).ok_or(Unwritten::Output(i + 1))?);
        text.push('\n');
    }
    if text.len() > FILE {
        return Err(Unwritten::Length(text.len()));
    }
    Ok(text)
}

/// The sheet's line of a call.
pub fn line_of(call: &Call, answer: &Answer) -> String {
    let word = call.word();
    let Answer {
        code,
        readable,
        first,
        second,
        steps,
        ..
    } = answer;
    let outcome = match code {
        0 => format!("(ok {first})"),
        1..=3 => format!("(no {code} {first})"),
        4 | 5 => format!("(no {code} {first} {second})"),
        _ => format!("(no {code})"),
    };
    format!("({word} {outcome} (work {steps}) (tag {readable}))")
}

/// The sheet of the calls, by their answers in the bytes of docs/HOST.md;
/// `None` where there is not one answer for each call.
pub fn sheet_of(calls: &Calls, answers: &[u8]) -> Option<String> {
    let mut sheet = format!("(sheet (variant {}))\n", calls.variant);
    let mut answers = Answers(answers);
    for call in &calls.calls {
        sheet.push_str(&line_of(call, &answers.next()?));
        sheet.push('\n');
    }
    answers.0.is_empty().then_some(sheet)
}

#[cfg(test)]
mod tests {
    use super::{Unwritten, text_of};
    use crate::calls::{Call, Calls};
    use crate::reader::read;
    use call_list::Direction;

    fn calls(calls: Vec<Call>) -> Calls {
        Calls { variant: 3, calls }
    }

    /// One call of each kind.
    fn each_kind() -> Calls {
        let init = |way| Call::Init {
            way,
            key: vec![0, 1, 0xff],
            nonce: Vec::new(),
            size: u64::MAX,
            header: vec![0x10],
        };
        calls(vec![
            init(Direction::Sealing),
            init(Direction::Opening),
            Call::Aad { input: vec![0x10] },
            Call::Data {
                input: Vec::new(),
                output: 10,
            },
            Call::Final { output: 32_768 },
            Call::Update(0),
            Call::Output(u64::MAX),
            Call::Mac,
            Call::Reset,
        ])
    }

    #[test]
    fn each_kind_has_its_form() {
        let text = "(variant 3)\n\
            (init seal (key 0001ff) (nonce -) (tag 18446744073709551615) (header 10))\n\
            (init open (key 0001ff) (nonce -) (tag 18446744073709551615) (header 10))\n\
            (aad 10)\n(data - 10)\n(final 32768)\n(update 0)\n(output 18446744073709551615)\n\
            (mac)\n(reset)\n";
        assert_eq!(text_of(&each_kind()), Ok(text.to_string()));
        assert_eq!(read(text.as_bytes()), Ok(each_kind()));
    }

    #[test]
    fn a_list_in_bytes_has_the_same_calls() {
        let list = each_kind().list();
        assert_eq!(Calls::of(list.bytes()), Some(each_kind()));
        assert_eq!(Calls::of(&list.bytes()[..list.bytes().len() - 1]), None);
        assert_eq!(Calls::of(&[5]), None);
    }

    #[test]
    fn what_is_too_long_has_no_text() {
        let output = 32_769;
        let (data, end) = (
            Call::Data {
                input: vec![1],
                output,
            },
            Call::Final { output },
        );
        for call in [data, end] {
            assert_eq!(
                text_of(&calls(vec![Call::Mac, call])),
                Err(Unwritten::Output(2))
            );
        }
        // (variant 3), (aad ..) and their newlines take 19 bytes beside the digits
        let aad = |n| calls(vec![Call::Aad { input: vec![7; n] }]);
        assert_eq!(text_of(&aad(32_758)).map(|text| text.len()), Ok(65_535));
        assert_eq!(text_of(&aad(32_759)), Err(Unwritten::Length(65_537)));
    }
}
