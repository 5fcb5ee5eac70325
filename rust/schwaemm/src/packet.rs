//! One packet at once.

use host::{Done, Packet, wipe};

use crate::{Error, Variant, stack};

/// What a one-shot call reads; `message` is the packet for an opening.
fn lend<'a>(
    variant: Variant,
    key: &'a [u8],
    nonce: &'a [u8],
    header: &'a [u8],
    message: &'a [u8],
) -> Packet<'a> {
    Packet {
        variant: variant.number(),
        key,
        nonce,
        header,
        message,
    }
}

/// What a one-shot call returned; a refusal's values are passed on as they came.
fn result(done: Done) -> Result<usize, Error> {
    match done.code {
        0 => Ok(done.first),
        code => Err(Error::new(code, done.first, done.second)),
    }
}

/// The same for a call that runs init, one data call and the end. There 4 is a
/// single call's refusal and counts from where that call begins to write, so
/// what the whole packet needs and the whole output's length are told.
fn result_of_calls(done: Done, needed: usize, room: usize) -> Result<usize, Error> {
    match done.code {
        4 => Err(Error::new(4, needed, room)),
        _ => result(done),
    }
}

/// Seals a message into `output` and returns how many bytes it wrote: the
/// message's and a tag's. What follows them is left as it is.
///
/// # Errors
///
/// 1 or 2 for a key or a nonce of another length, 4 for an output that is too
/// short; then its first bytes may hold ciphertext.
///
/// ```
/// use schwaemm::{Variant, seal_into};
///
/// let variant = Variant::Schwaemm128_128;
/// let mut packet = [0; 64];
/// let n = seal_into(variant, &[1; 16], &[2; 16], b"", b"nitrate 4.1", &mut packet)?;
/// assert_eq!(n, 11 + variant.tag_bytes());
/// # Ok::<(), schwaemm::Error>(())
/// ```
pub fn seal_into(
    variant: Variant,
    key: &[u8],
    nonce: &[u8],
    header: &[u8],
    message: &[u8],
    output: &mut [u8],
) -> Result<usize, Error> {
    let done = host::seal(lend(variant, key, nonce, header, message), output);
    stack::wipe();
    let needed = message.len().saturating_add(variant.tag_bytes());
    result_of_calls(done, needed, output.len())
}

/// Seals a message: its ciphertext, and the tag behind it.
///
/// A nonce must never be used again under the same key. Nothing here looks for
/// it: each call has a new engine.
///
/// # Errors
///
/// 1 or 2 for a key or a nonce of another length.
///
/// ```
/// use schwaemm::{Variant, open_whole, seal};
///
/// let variant = Variant::Schwaemm256_128;
/// let (key, nonce) = ([7; 16], [9; 32]);
/// let packet = seal(variant, &key, &nonce, b"probe 12", b"nitrate 4.1")?;
/// assert_eq!(packet.len(), 11 + variant.tag_bytes());
/// assert_eq!(open_whole(variant, &key, &nonce, b"probe 12", &packet)?, b"nitrate 4.1");
/// # Ok::<(), schwaemm::Error>(())
/// ```
pub fn seal(
    variant: Variant,
    key: &[u8],
    nonce: &[u8],
    header: &[u8],
    message: &[u8],
) -> Result<Vec<u8>, Error> {
    let mut output = vec![0; message.len() + variant.tag_bytes()];
    let n = seal_into(variant, key, nonce, header, message, &mut output)?;
    output.truncate(n);
    Ok(output)
}

/// Opens a packet into `output`, whole or not at all, and returns how many bytes
/// it wrote: the packet's less a tag's. What follows them is left as it is.
///
/// The tag is verified before anything is written, so `output` may be a display's
/// buffer, or memory that is shown to another reader: it may meet a part of the
/// message while that is written, and nothing that was not verified. This is the
/// opening to take where nothing speaks for [`open_into`], which takes about half
/// the time of a long packet whose tag is right. The packet is read twice and must
/// not change between: copy one that lies where another process can write.
///
/// # Errors
///
/// 1 or 2 for a key or a nonce of another length, 5 for a packet that is shorter
/// than a tag, 4 for an output that is too short, 6 for a wrong tag; they are
/// looked for in this order. Each of them leaves every byte of `output` as it is.
///
/// ```
/// use schwaemm::{Error, Variant, open_whole_into, seal};
///
/// let variant = Variant::Schwaemm128_128;
/// let (key, nonce) = ([7; 16], [9; 16]);
/// let mut packet = seal(variant, &key, &nonce, b"probe 12", b"nitrate 4.1")?;
/// let mut display = *b"nitrate 3.9 mg/l";
/// packet[3] ^= 1;
/// let answer = open_whole_into(variant, &key, &nonce, b"probe 12", &packet, &mut display);
/// assert_eq!(answer, Err(Error::AuthenticationFailed));
/// assert_eq!(display, *b"nitrate 3.9 mg/l");
/// packet[3] ^= 1;
/// let answer = open_whole_into(variant, &key, &nonce, b"probe 12", &packet, &mut display);
/// assert_eq!(answer, Ok(11));
/// assert_eq!(display, *b"nitrate 4.1 mg/l");
/// # Ok::<(), schwaemm::Error>(())
/// ```
pub fn open_whole_into(
    variant: Variant,
    key: &[u8],
    nonce: &[u8],
    header: &[u8],
    packet: &[u8],
    output: &mut [u8],
) -> Result<usize, Error> {
    let done = host::open_whole(lend(variant, key, nonce, header, packet), output);
    stack::wipe();
    result(done)
}

/// Opens a packet, whole or not at all: the message, where the tag is the right
/// one. The vector never holds a byte of a message whose tag is wrong.
///
/// # Errors
///
/// 1 or 2 for a key or a nonce of another length, 5 for a packet that is
/// shorter than a tag, 6 for a wrong tag.
///
/// ```
/// use schwaemm::{Error, Variant, open_whole, seal};
///
/// let variant = Variant::Schwaemm192_192;
/// let (key, nonce) = ([7; 24], [9; 24]);
/// let packet = seal(variant, &key, &nonce, b"probe 12", b"nitrate 4.1")?;
/// assert_eq!(open_whole(variant, &key, &nonce, b"probe 12", &packet)?, b"nitrate 4.1");
/// let other = open_whole(variant, &key, &nonce, b"probe 13", &packet);
/// assert_eq!(other, Err(Error::AuthenticationFailed));
/// # Ok::<(), schwaemm::Error>(())
/// ```
pub fn open_whole(
    variant: Variant,
    key: &[u8],
    nonce: &[u8],
    header: &[u8],
    packet: &[u8],
) -> Result<Vec<u8>, Error> {
    let mut output = vec![0; packet.len().saturating_sub(variant.tag_bytes())];
    let n = open_whole_into(variant, key, nonce, header, packet, &mut output)?;
    output.truncate(n);
    Ok(output)
}

/// Opens a packet into `output` and returns how many bytes it wrote: the
/// packet's less a tag's. What follows them is left as it is.
///
/// Bytes of the message are in `output` before the tag is verified. So it is for
/// an output that nobody reads before the answer is there, where time counts: it
/// takes about half as long as [`open_whole_into`] for a long packet whose tag is
/// right, and as long for one whose tag is wrong.
///
/// # Errors
///
/// 1 or 2 for a key or a nonce of another length, 4 for an output that is too
/// short, 5 for a packet that is shorter than a tag, 6 for a wrong tag. After
/// 4 and 6, zeros stand wherever a byte of the message could have been
/// written: nothing of a message that was not verified is handed out.
///
/// ```
/// use schwaemm::{Error, Variant, open_into, seal};
///
/// let variant = Variant::Schwaemm192_192;
/// let (key, nonce) = ([7; 24], [9; 24]);
/// let mut packet = seal(variant, &key, &nonce, b"probe 12", b"nitrate 4.1")?;
/// packet[3] ^= 1;
/// let mut message = [0xff; 11];
/// let answer = open_into(variant, &key, &nonce, b"probe 12", &packet, &mut message);
/// assert_eq!(answer, Err(Error::AuthenticationFailed));
/// assert_eq!(message, [0; 11]);
/// # Ok::<(), schwaemm::Error>(())
/// ```
pub fn open_into(
    variant: Variant,
    key: &[u8],
    nonce: &[u8],
    header: &[u8],
    packet: &[u8],
    output: &mut [u8],
) -> Result<usize, Error> {
    let needed = packet.len().saturating_sub(variant.tag_bytes());
    let room = output.len();
    let done = host::open(lend(variant, key, nonce, header, packet), output);
    stack::wipe();
    if matches!(done.code, 4 | 6) {
        wipe(&mut output[..needed.min(room)]);
    }
    result_of_calls(done, needed, room)
}

/// Opens a packet: the message, where the tag is the right one. It answers as
/// [`open_whole`] does, in about half the time of a long packet whose tag is right;
/// bytes of a message whose tag is wrong are in the vector until they are
/// overwritten.
///
/// # Errors
///
/// 1 or 2 for a key or a nonce of another length, 5 for a packet that is
/// shorter than a tag, 6 for a wrong tag.
///
/// ```
/// use schwaemm::{Error, Variant, open, seal};
///
/// let (key, nonce) = ([7; 32], [9; 32]);
/// let packet = seal(Variant::Schwaemm256_256, &key, &nonce, b"", b"nitrate 4.1")?;
/// let other = open(Variant::Schwaemm256_256, &key, &nonce, b"another header", &packet);
/// assert_eq!(other, Err(Error::AuthenticationFailed));
/// # Ok::<(), schwaemm::Error>(())
/// ```
pub fn open(
    variant: Variant,
    key: &[u8],
    nonce: &[u8],
    header: &[u8],
    packet: &[u8],
) -> Result<Vec<u8>, Error> {
    let mut output = vec![0; packet.len().saturating_sub(variant.tag_bytes())];
    let n = open_into(variant, key, nonce, header, packet, &mut output)?;
    output.truncate(n);
    Ok(output)
}
