//! The plain C of c/schwaemm.c, a contender of the benchmark.

use std::ffi::c_int;

use crate::contenders::VARIANTS;

/// The functions of the C that seal and that open, in the order of `VARIANTS`.
macro_rules! functions {
    ($($seal:ident $open:ident)*) => {
        unsafe extern "C" {
            $(
                fn $seal(
                    output: *mut u8,
                    key: *const u8,
                    nonce: *const u8,
                    header: *const u8,
                    header_bytes: usize,
                    message: *const u8,
                    message_bytes: usize,
                );
                fn $open(
                    output: *mut u8,
                    key: *const u8,
                    nonce: *const u8,
                    header: *const u8,
                    header_bytes: usize,
                    packet: *const u8,
                    message_bytes: usize,
                ) -> c_int;
            )*
        }

        const SEAL: [Seal; VARIANTS.len()] = [$($seal),*];
        const OPEN: [Open; VARIANTS.len()] = [$($open),*];
    };
}

type Seal = unsafe extern "C" fn(*mut u8, *const u8, *const u8, *const u8, usize, *const u8, usize);
type Open = unsafe extern "C" fn(
    *mut u8,
    *const u8,
    *const u8,
    *const u8,
    usize,
    *const u8,
    usize,
) -> c_int;

functions! {
    c_seal_128_128 c_open_128_128
    c_seal_256_128 c_open_256_128
    c_seal_192_192 c_open_192_192
    c_seal_256_256 c_open_256_256
}

/// What is sealed or opened: a message, or a packet with its tag.
#[derive(Clone, Copy)]
pub struct Packet<'a> {
    /// The place of the variant in `VARIANTS`.
    pub variant: usize,
    pub key: &'a [u8],
    pub nonce: &'a [u8],
    pub header: &'a [u8],
    pub input: &'a [u8],
}

impl Packet<'_> {
    /// Panics where key or nonce have not the variant's size.
    fn check(&self) {
        let sizes = VARIANTS[self.variant];
        assert_eq!(self.key.len(), sizes.key_bytes());
        assert_eq!(self.nonce.len(), sizes.nonce_bytes());
    }
}

/// Seals a message.
///
/// # Panics
///
/// Where key, nonce or output have not the size that they must have.
pub fn seal(packet: Packet, output: &mut [u8]) {
    packet.check();
    let length = packet.input.len();
    assert_eq!(output.len(), length + VARIANTS[packet.variant].tag_bytes());
    // SAFETY: the sizes are those that the C reads and writes.
    unsafe {
        SEAL[packet.variant](
            output.as_mut_ptr(),
            packet.key.as_ptr(),
            packet.nonce.as_ptr(),
            packet.header.as_ptr(),
            packet.header.len(),
            packet.input.as_ptr(),
            length,
        );
    }
}

/// Opens a packet, and says whether its tag is right.
///
/// # Panics
///
/// Where key, nonce or output have not the size that they must have.
pub fn open(packet: Packet, output: &mut [u8]) -> bool {
    packet.check();
    let length = output.len();
    assert_eq!(
        packet.input.len(),
        length + VARIANTS[packet.variant].tag_bytes()
    );
    // SAFETY: the sizes are those that the C reads and writes.
    let opened = unsafe {
        OPEN[packet.variant](
            output.as_mut_ptr(),
            packet.key.as_ptr(),
            packet.nonce.as_ptr(),
            packet.header.as_ptr(),
            packet.header.len(),
            packet.input.as_ptr(),
            length,
        )
    };
    opened == 1
}

#[cfg(test)]
mod tests {
    use super::{Packet, open, seal};
    use crate::contenders::{Contender, Job, Operation, VARIANTS};

    /// Short messages, whole blocks among them, on every variant.
    fn jobs(operation: Operation) -> impl Iterator<Item = Job> {
        (0..VARIANTS.len()).flat_map(move |variant| {
            [0, 1, 32, 33].into_iter().flat_map(move |header| {
                (0..=100).map(move |length| Job::new(variant, operation, header, length))
            })
        })
    }

    fn packet<'a>(job: &'a Job, input: &'a [u8]) -> Packet<'a> {
        Packet {
            variant: job.variant,
            key: &job.key,
            nonce: &job.nonce,
            header: &job.header,
            input,
        }
    }

    #[test]
    fn the_c_seals_as_the_rust_does() {
        for mut job in jobs(Operation::Seal) {
            let mut sealed = vec![0xee; job.output.len()];
            seal(packet(&job, &job.input), &mut sealed);
            job.run(Contender::Rust);
            assert_eq!(sealed, job.output);
        }
    }

    #[test]
    fn the_c_opens_what_it_seals() {
        for job in jobs(Operation::Seal) {
            let mut sealed = vec![0xee; job.output.len()];
            seal(packet(&job, &job.input), &mut sealed);
            let mut opened = vec![0xee; job.input.len()];
            assert!(open(packet(&job, &sealed), &mut opened));
            assert_eq!(opened, job.input);
        }
    }

    #[test]
    fn the_c_refuses_a_damaged_tag() {
        for job in jobs(Operation::Open) {
            let length = job.output.len();
            for place in length..job.input.len() {
                let mut damaged = job.input.clone();
                damaged[place] ^= 1 << (place % 8);
                let mut opened = vec![0xee; length];
                assert!(!open(packet(&job, &damaged), &mut opened));
                assert_eq!(opened, vec![0; length]);
            }
        }
    }
}
