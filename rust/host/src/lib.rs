//! The host boundary of the port (docs/HOST.md): its four functions, and what
//! writes lists for one of them and reads its answers (`call_list`). Nothing is
//! checked or decided here; the crate `schwaemm` is the one for users.

pub use call_list::{ANSWER_HEAD, Answer, Answers, CALL_HEAD, Direction, List, Wiped, wipe};

/// The code of a list that is malformed.
pub const MALFORMED: u8 = 21;
/// The code of answers that do not fit.
pub const NO_ROOM: u8 = 22;
/// The code of a one-shot call whose variant is not 1 to 4.
pub const NO_VARIANT: u8 = 23;

/// What `schwaemm_run` returned.
#[derive(Clone, Copy, Debug, PartialEq, Eq)]
pub struct Ran {
    /// 0, [`MALFORMED`] or [`NO_ROOM`].
    pub code: u8,
    /// The list's length, or the offset of the call where it stopped.
    pub place: usize,
}

/// What `schwaemm_seal`, `schwaemm_open` or `schwaemm_open_whole` returned.
#[derive(Clone, Copy, Debug, PartialEq, Eq)]
pub struct Done {
    /// 0, document 01's number of the first refusal, or [`NO_VARIANT`].
    pub code: u8,
    /// The bytes written, or the refusal's first value, or 0.
    pub first: usize,
    /// The refusal's second value, or 0.
    pub second: usize,
}

/// The arguments of a one-shot call that are read.
#[derive(Clone, Copy)]
pub struct Packet<'a> {
    /// The variant's number, 1 to 4.
    pub variant: u8,
    /// The key.
    pub key: &'a [u8],
    /// The nonce.
    pub nonce: &'a [u8],
    /// The header.
    pub header: &'a [u8],
    /// The message for sealing, the packet for opening.
    pub message: &'a [u8],
}

unsafe extern "C" {
    fn schwaemm_run(
        list: *const u8,
        list_len: usize,
        answers: *mut u8,
        answers_len: usize,
        place: *mut usize,
    ) -> u8;
    fn schwaemm_seal(
        variant: u8,
        key: *const u8,
        key_len: usize,
        nonce: *const u8,
        nonce_len: usize,
        header: *const u8,
        header_len: usize,
        message: *const u8,
        message_len: usize,
        output: *mut u8,
        output_len: usize,
        first: *mut usize,
        second: *mut usize,
    ) -> u8;
    fn schwaemm_open(
        variant: u8,
        key: *const u8,
        key_len: usize,
        nonce: *const u8,
        nonce_len: usize,
        header: *const u8,
        header_len: usize,
        packet: *const u8,
        packet_len: usize,
        output: *mut u8,
        output_len: usize,
        first: *mut usize,
        second: *mut usize,
    ) -> u8;
    fn schwaemm_open_whole(
        variant: u8,
        key: *const u8,
        key_len: usize,
        nonce: *const u8,
        nonce_len: usize,
        header: *const u8,
        header_len: usize,
        packet: *const u8,
        packet_len: usize,
        output: *mut u8,
        output_len: usize,
        first: *mut usize,
        second: *mut usize,
    ) -> u8;
}

/// Runs a call list on a new engine and writes its answers.
pub fn run(list: &[u8], answers: &mut [u8]) -> Ran {
    let mut place = 0;
    // SAFETY: each pointer is to as many bytes as the length behind it says,
    // and what is written is borrowed by nobody else.
    let code = unsafe {
        schwaemm_run(
            list.as_ptr(),
            list.len(),
            answers.as_mut_ptr(),
            answers.len(),
            &mut place,
        )
    };
    Ran { code, place }
}

/// Calls one of the three functions of a whole packet, which take the same.
macro_rules! at_once {
    ($function:ident, $packet:expr, $output:expr) => {{
        let (p, output): (Packet, &mut [u8]) = ($packet, $output);
        let (mut first, mut second) = (0, 0);
        // SAFETY: as in `run`.
        let code = unsafe {
            $function(
                p.variant,
                p.key.as_ptr(),
                p.key.len(),
                p.nonce.as_ptr(),
                p.nonce.len(),
                p.header.as_ptr(),
                p.header.len(),
                p.message.as_ptr(),
                p.message.len(),
                output.as_mut_ptr(),
                output.len(),
                &mut first,
                &mut second,
            )
        };
        Done {
            code,
            first,
            second,
        }
    }};
}

/// Seals a message: init, one data call and the end on a new engine.
pub fn seal(p: Packet, output: &mut [u8]) -> Done {
    at_once!(schwaemm_seal, p, output)
}

/// Opens a packet: init, one data call and the end on a new engine.
pub fn open(p: Packet, output: &mut [u8]) -> Done {
    at_once!(schwaemm_open, p, output)
}

/// Opens a packet in two passes: the first verifies the tag and writes nothing,
/// the second writes the message. A refusal leaves the output as it was lent.
pub fn open_whole(p: Packet, output: &mut [u8]) -> Done {
    at_once!(schwaemm_open_whole, p, output)
}
