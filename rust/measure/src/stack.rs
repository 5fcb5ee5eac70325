//! How deep a call goes: it runs on a stack of its own that is painted before.

use std::arch::asm;
use std::ffi::c_void;

/// The stack's size.
const SIZE: usize = 1 << 20;

/// What an unused byte of the stack holds.
const PAINT: u8 = 0xc5;

/// What is left of a call on its stack.
pub struct Left {
    stack: Vec<u8>,
}

extern "C" fn call<F: FnMut()>(f: *mut c_void) {
    // SAFETY: `run` hands over a pointer to its own `f`.
    unsafe { (*f.cast::<F>())() }
}

/// Runs `f` on a painted stack of its own. It must not panic.
pub fn run<F: FnMut()>(mut f: F) -> Left {
    let mut stack = vec![PAINT; SIZE];
    let top = (stack.as_mut_ptr() as usize + SIZE) & !63;
    let function: extern "C" fn(*mut c_void) = call::<F>;
    // SAFETY: the stack is large enough and aligned, the old stack pointer is
    // kept in a register that a C function preserves, and `f` outlives it.
    unsafe {
        asm!(
            "mov r12, rsp",
            "mov rsp, {top}",
            "call {function}",
            "mov rsp, r12",
            top = in(reg) top,
            function = in(reg) function,
            in("rdi") &raw mut f,
            out("r12") _,
            clobber_abi("C"),
        );
    }
    Left { stack }
}

impl Left {
    /// How many bytes of the stack were written, from its top on.
    pub fn depth(&self) -> usize {
        let untouched = self.stack.iter().take_while(|byte| **byte == PAINT).count();
        SIZE - untouched
    }

    /// At how many places of the stack these bytes are left.
    pub fn copies(&self, bytes: &[u8]) -> usize {
        self.stack
            .windows(bytes.len())
            .filter(|window| *window == bytes)
            .count()
    }
}

#[cfg(test)]
mod tests {
    use super::{Left, run};
    use crate::contenders::{Contender, Job, Operation, VARIANTS};
    use std::hint::black_box;

    /// The library leaves neither key nor message on the stack.
    #[test]
    fn the_library_wipes_the_stack() {
        for variant in 0..VARIANTS.len() {
            for operation in Operation::ALL {
                let mut job = Job::new(variant, operation, 32, 100);
                job.run(Contender::Rust);
                let secrets = [
                    job.key.clone(),
                    job.input[84..].to_vec(),
                    job.output[84..].to_vec(),
                ];
                let left = run(|| job.run(Contender::RattleLibrary));
                for secret in &secrets {
                    assert_eq!(left.copies(&secret[..16]), 0);
                }
                if operation == Operation::Open {
                    let left = [0, 1].map(|damage| whole(&mut job, damage));
                    for secret in &secrets {
                        assert_eq!(left.each_ref().map(|l| l.copies(&secret[..16])), [0, 0]);
                    }
                }
            }
        }
    }

    /// The library opens a packet whole or not at all, its last byte changed by
    /// `damage`.
    fn whole(job: &mut Job, damage: u8) -> Left {
        let variant = schwaemm::Variant::ALL[job.variant];
        *job.input.last_mut().expect("a tag") ^= damage;
        let mut opened = false;
        let left = run(|| {
            let (packet, output) = job.lend();
            let (key, nonce, header) = (packet.key, packet.nonce, packet.header);
            let answer =
                schwaemm::open_whole_into(variant, key, nonce, header, packet.message, output);
            opened = answer.is_ok();
        });
        assert_eq!(opened, damage == 0);
        left
    }

    #[test]
    fn depth_is_seen() {
        let nothing = run(|| {}).depth();
        let some = run(|| {
            black_box([7_u8; 5000]);
        });
        assert!(nothing < 200, "{nothing}");
        assert!((5000..6000).contains(&some.depth()), "{}", some.depth());
        assert!(some.copies(&[7; 4000]) > 0);
    }
}
