//! The reader of answers, and their layout as it is written.

/// The bytes of an answer before those that its call gives back.
pub const HEAD: usize = 34;

/// One call's answer.
#[derive(Clone, Copy, Debug, PartialEq, Eq)]
pub struct Answer<'a> {
    /// 0, or document 01's number of the refusal.
    pub code: u8,
    /// 1 where a tag can be read after the call, else 0.
    pub readable: u8,
    /// The count, or the refusal's first value, or 0.
    pub first: u64,
    /// The refusal's second value, or 0.
    pub second: u64,
    /// The steps of the current message after the call.
    pub steps: u64,
    /// The whole output of a data call or an end; a tag's 32 bytes; else none.
    pub bytes: &'a [u8],
}

impl Answer<'_> {
    /// Appends the answer as the port writes it.
    pub fn write(&self, to: &mut Vec<u8>) {
        to.extend([self.code, self.readable]);
        for number in [self.first, self.second, self.steps, self.bytes.len() as u64] {
            to.extend(number.to_le_bytes());
        }
        to.extend(self.bytes);
    }
}

/// The answers in a slice, one after the other. It ends where the slice ends,
/// or where the rest holds no whole answer.
pub struct Answers<'a>(pub &'a [u8]);

impl<'a> Iterator for Answers<'a> {
    type Item = Answer<'a>;

    fn next(&mut self) -> Option<Answer<'a>> {
        let (head, rest) = self.0.split_at_checked(HEAD)?;
        let number = |at: usize| u64::from_le_bytes(head[at..at + 8].try_into().unwrap());
        let (bytes, rest) = rest.split_at_checked(usize::try_from(number(26)).ok()?)?;
        self.0 = rest;
        Some(Answer {
            code: head[0],
            readable: head[1],
            first: number(2),
            second: number(10),
            steps: number(18),
            bytes,
        })
    }
}
