//! A reader of call lists as text, from document 02's words (2026-01). A line is
//! read to a tree of forms first, whatever its words are; then the tree is held
//! against the calls. It shares nothing with the port's reader.

use call_list::Direction;

use crate::calls::{Call, Calls};
use crate::{FILE, OUTPUT};

/// How deep forms stand in each other.
const DEPTH: usize = 4;

/// A word, a decimal number or a hexadecimal string as it is written, or a form.
enum Item<'a> {
    Plain(&'a [u8]),
    Form(Form<'a>),
}

struct Form<'a> {
    word: &'a [u8],
    items: Vec<Item<'a>>,
}

/// A line, and how far it has been read.
struct Line<'a> {
    bytes: &'a [u8],
    at: usize,
}

fn is_word(text: &[u8]) -> bool {
    !text.is_empty() && text.iter().all(u8::is_ascii_lowercase)
}

/// A decimal number without leading zeros, below 2^64.
fn number(text: &[u8]) -> Option<u64> {
    if !text.iter().all(u8::is_ascii_digit) || text.len() > 1 && text[0] == b'0' {
        return None;
    }
    std::str::from_utf8(text).ok()?.parse().ok()
}

fn digit(byte: u8) -> Option<u8> {
    match byte {
        b'0'..=b'9' => Some(byte - b'0'),
        b'a'..=b'f' => Some(byte - b'a' + 10),
        _ => None,
    }
}

/// The bytes of a hexadecimal string.
fn bytes(text: &[u8]) -> Option<Vec<u8>> {
    match text {
        b"-" => Some(Vec::new()),
        [] => None,
        _ => text
            .chunks(2)
            .map(|pair| match pair {
                [high, low] => Some(16 * digit(*high)? + digit(*low)?),
                _ => None,
            })
            .collect(),
    }
}

impl<'a> Line<'a> {
    fn next(&self) -> Option<u8> {
        self.bytes.get(self.at).copied()
    }

    fn expect(&mut self, byte: u8) -> Option<()> {
        (self.next()? == byte).then(|| self.at += 1)
    }

    /// All up to a blank, a bracket or the end.
    fn plain(&mut self) -> &'a [u8] {
        let rest = &self.bytes[self.at..];
        let ends = |byte: &u8| matches!(byte, b' ' | b'(' | b')');
        let length = rest.iter().position(ends).unwrap_or(rest.len());
        self.at += length;
        &rest[..length]
    }

    /// A form with at most so many levels.
    fn form(&mut self, levels: usize) -> Option<Form<'a>> {
        let deeper = levels.checked_sub(1)?;
        self.expect(b'(')?;
        let word = self.plain();
        let mut items = Vec::new();
        while self.next() == Some(b' ') {
            self.at += 1;
            items.push(self.item(deeper)?);
        }
        self.expect(b')')?;
        is_word(word).then_some(Form { word, items })
    }

    fn item(&mut self, levels: usize) -> Option<Item<'a>> {
        if self.next() == Some(b'(') {
            return self.form(levels).map(Item::Form);
        }
        let text = self.plain();
        let known = is_word(text) || number(text).is_some() || bytes(text).is_some();
        known.then_some(Item::Plain(text))
    }
}

/// The form that a whole line is.
fn form_in(line: &[u8]) -> Option<Form<'_>> {
    let mut line = Line { bytes: line, at: 0 };
    let form = line.form(DEPTH)?;
    (line.at == line.bytes.len()).then_some(form)
}

/// What stands in a form with this word and one item.
fn field<'a>(item: &Item<'a>, name: &[u8]) -> Option<&'a [u8]> {
    match item {
        Item::Form(form) if form.word == name => match form.items[..] {
            [Item::Plain(text)] => Some(text),
            _ => None,
        },
        _ => None,
    }
}

fn output(text: &[u8]) -> Option<usize> {
    usize::try_from(number(text)?).ok().filter(|n| *n <= OUTPUT)
}

/// The variant that a line stands for.
fn variant(line: &[u8]) -> Option<u8> {
    let form = form_in(line)?;
    match (form.word, &form.items[..]) {
        (b"variant", [Item::Plain([digit @ b'1'..=b'4'])]) => Some(digit - b'0'),
        _ => None,
    }
}

/// The call that a line stands for.
fn call(line: &[u8]) -> Option<Call> {
    let form = form_in(line)?;
    match (form.word, &form.items[..]) {
        (b"init", [Item::Plain(way), key, nonce, tag, header]) => Some(Call::Init {
            way: match *way {
                b"seal" => Direction::Sealing,
                b"open" => Direction::Opening,
                _ => return None,
            },
            key: bytes(field(key, b"key")?)?,
            nonce: bytes(field(nonce, b"nonce")?)?,
            size: number(field(tag, b"tag")?)?,
            header: bytes(field(header, b"header")?)?,
        }),
        (b"aad", [Item::Plain(input)]) => Some(Call::Aad {
            input: bytes(input)?,
        }),
        (b"data", [Item::Plain(input), Item::Plain(room)]) => Some(Call::Data {
            input: bytes(input)?,
            output: output(room)?,
        }),
        (b"final", [Item::Plain(room)]) => Some(Call::Final {
            output: output(room)?,
        }),
        (b"update", [Item::Plain(n)]) => Some(Call::Update(number(n)?)),
        (b"output", [Item::Plain(n)]) => Some(Call::Output(number(n)?)),
        (b"mac", []) => Some(Call::Mac),
        (b"reset", []) => Some(Call::Reset),
        _ => None,
    }
}

/// The calls of a file, or the line that it is refused at: 0 for a file that is
/// too long, else the number of the first wrong line.
pub fn read(file: &[u8]) -> Result<Calls, usize> {
    if file.len() > FILE {
        return Err(0);
    }
    let file = file.strip_suffix(b"\n").unwrap_or(file);
    let mut lines = file.split(|byte| *byte == b'\n');
    let variant = lines.next().and_then(variant).ok_or(1_usize)?;
    let calls = lines
        .enumerate()
        .map(|(i, line)| call(line).ok_or(i + 2))
        .collect::<Result<_, _>>()?;
    Ok(Calls { variant, calls })
}
