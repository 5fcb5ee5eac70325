//! Schwaemm authenticated encryption by the proved engine of this repository,
//! which is linked as the archives `libopen_whole.a`, for packets that are opened
//! whole or not at all, `libpacket.a`, for packets that are sealed or opened at
//! once, and `libhost.a`, for lists of calls (docs/HOST.md).
//!
//! ```
//! use schwaemm::{Variant, open_whole_into, seal};
//!
//! let variant = Variant::Schwaemm128_128;
//! let key = [7; 16];
//! let nonce = [9; 16]; // another one for every message under this key
//! let packet = seal(variant, &key, &nonce, b"probe 12", b"nitrate 4.1")?;
//! let mut display = [0; 32];
//! let n = open_whole_into(variant, &key, &nonce, b"probe 12", &packet, &mut display)?;
//! assert_eq!(display[..n], *b"nitrate 4.1");
//! # Ok::<(), schwaemm::Error>(())
//! ```
//!
//! | to | take |
//! |---|---|
//! | open a packet that is there as a whole | [`open_whole_into`]; to get a vector: [`open_whole`] |
//! | the same in about half the time of a long packet, where nobody reads the output before the answer | [`open_into`]; to get a vector: [`open`] |
//! | seal a message that is there as a whole | [`seal`]; into a slice: [`seal_into`] |
//! | seal or open a message that comes in pieces, or learn its tag and steps | [`Message`] |
//! | make any calls of an engine: resets, repeated starts, length queries | [`Calls`] |
//!
//! A refusal is an [`Error`] with document 01's number. Key, nonce and tag have
//! the lengths that [`Variant`] gives.
//!
//! # Which opening
//!
//! [`open_whole_into`] goes over the packet twice: once to verify the tag, which
//! writes nothing, and once to write the message. Where it refuses, the output is
//! exactly as it was lent. So take it where the output is a display's
//! buffer, or memory that is shown to another reader, and take it where you are
//! not sure.
//!
//! [`open_into`] goes over the packet once, and writes bytes of the message
//! before it knows whether the tag is right; where it is not, it overwrites them
//! with zeros. Take it where time counts and nobody reads the output before the
//! answer.
//!
//! Nobody reads a vector before it is returned. So [`open`] and [`open_whole`]
//! differ in time, and in whether the vector ever held what was not verified.
//!
//! # What crosses the boundary
//!
//! Numbers and byte slices, nothing else. An engine lives inside one call of
//! an archive: it begins new, and nothing of it is left when the call returns
//! but the answers. So each function here stands alone, and may be called from
//! any thread. A nonce that comes again in another call is not noticed; within
//! one list of [`Calls`] it is, with 11.
//!
//! # What is copied
//!
//! The functions for one packet read and write the caller's slices in place.
//! [`Message`] and [`Calls`] copy what they are given into a list, the key too;
//! running it makes the answers, with every output, beside the list. A piece of
//! k bytes of a [`Message`]'s data, with blocks of b bytes, takes 33 + k + (k + b)
//! bytes of the list, 34 + (k + b) of the answers and k of the result. So a
//! message of n bytes takes about 4n bytes while it runs, and up to 131 more for
//! each piece, besides spare room in the list: where it grows, its room at
//! least doubles. With [`Calls`] the caller says how large an output is; it is
//! there in the list, in the answers and in what is handed out.
//!
//! # What is wiped
//!
//! Lists and answers are overwritten with zeros when they are dropped, and
//! when a list has to move as it grows, by writes that the compiler has to
//! keep. Where [`open`], [`open_into`] or an opening [`Message`] fails, what
//! could have been written of the message is overwritten too. [`open_whole`] and
//! [`open_whole_into`] write nothing of such a message, so nothing is overwritten.
//! [`Calls`] hands out what each call wrote, of an opening that fails too. After
//! each call of an archive 8 KiB of the stack below the caller's are overwritten:
//! engines and states are values there, and their copies hold the key, the state
//! and a block of the message. That is more than the calls take
//! (docs/PERFORMANCE.md), and as much as can be done from outside; nothing is
//! proved of it.
//!
//! Not wiped: the slices that the caller lends, what is handed out, registers,
//! and what the system made of any of these. Nothing is claimed of timing
//! (docs/01-scope.md).

mod calls;
mod error;
mod message;
mod packet;
mod stack;
mod variant;

pub use calls::{Answer, Calls, Direction};
pub use error::Error;
pub use message::{Finished, Message};
pub use packet::{open, open_into, open_whole, open_whole_into, seal, seal_into};
pub use variant::Variant;
