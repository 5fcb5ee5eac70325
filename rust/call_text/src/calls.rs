//! The calls of a list. Of an output only the length is kept: the program lends
//! zeros.

use call_list::{CALL_HEAD, Direction, List};

/// A call.
#[derive(Clone, Debug, PartialEq, Eq)]
pub enum Call {
    Init {
        way: Direction,
        key: Vec<u8>,
        nonce: Vec<u8>,
        size: u64,
        header: Vec<u8>,
    },
    Aad {
        input: Vec<u8>,
    },
    Data {
        input: Vec<u8>,
        output: usize,
    },
    Final {
        output: usize,
    },
    Update(u64),
    Output(u64),
    Mac,
    Reset,
}

impl Call {
    /// The word of the call's form, and its name in a sheet.
    pub fn word(&self) -> &'static str {
        match self {
            Call::Init { .. } => "init",
            Call::Aad { .. } => "aad",
            Call::Data { .. } => "data",
            Call::Final { .. } => "final",
            Call::Update(_) => "update",
            Call::Output(_) => "output",
            Call::Mac => "mac",
            Call::Reset => "reset",
        }
    }
}

/// A variant's number, 1 to 4, and the calls.
#[derive(Clone, Debug, PartialEq, Eq)]
pub struct Calls {
    pub variant: u8,
    pub calls: Vec<Call>,
}

impl Calls {
    /// The calls of a list in the bytes of docs/HOST.md; `None` where these are
    /// no list.
    pub fn of(list: &[u8]) -> Option<Self> {
        let (&variant, mut rest) = list.split_first()?;
        let mut calls = Vec::new();
        while !rest.is_empty() {
            let (call, behind) = call_of(rest)?;
            calls.push(call);
            rest = behind;
        }
        (1..=4)
            .contains(&variant)
            .then_some(Self { variant, calls })
    }

    /// The list, with zeros in each output before its call.
    pub fn list(&self) -> List {
        let mut list = List::new(self.variant);
        for call in &self.calls {
            match call {
                Call::Init {
                    way,
                    key,
                    nonce,
                    size,
                    header,
                } => list.init(*way, *size, key, nonce, header),
                Call::Aad { input } => list.process_aad_bytes(input),
                Call::Data { input, output } => list.process_bytes(input, &vec![0; *output]),
                Call::Final { output } => list.do_final(&vec![0; *output]),
                Call::Update(n) => list.update_output_len(*n),
                Call::Output(n) => list.output_len(*n),
                Call::Mac => list.mac(),
                Call::Reset => list.reset(),
            }
        }
        list
    }
}

/// The call in front, and the bytes behind it.
fn call_of(bytes: &[u8]) -> Option<(Call, &[u8])> {
    let (head, rest) = bytes.split_at_checked(CALL_HEAD)?;
    let number = |at: usize| u64::from_le_bytes(head[at..at + 8].try_into().unwrap());
    let length = |at: usize| usize::try_from(number(at)).ok();
    let (first, rest) = rest.split_at_checked(length(9)?)?;
    let (second, rest) = rest.split_at_checked(length(17)?)?;
    let (third, rest) = rest.split_at_checked(length(25)?)?;
    let init = |way| Call::Init {
        way,
        key: first.to_vec(),
        nonce: second.to_vec(),
        size: number(1),
        header: third.to_vec(),
    };
    let (input, output) = (first.to_vec(), third.len());
    let call = match head[0] {
        1 => init(Direction::Sealing),
        2 => init(Direction::Opening),
        3 => Call::Aad { input },
        4 => Call::Data { input, output },
        5 => Call::Final { output },
        6 => Call::Reset,
        7 => Call::Mac,
        8 => Call::Update(number(1)),
        9 => Call::Output(number(1)),
        _ => return None,
    };
    Some((call, rest))
}
