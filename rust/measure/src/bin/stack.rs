//! How much stack sealing and opening a packet take, and how many copies of
//! the key and of the message's last 16 bytes they leave there:
//!
//!     cargo run --release -p measure --bin stack
//!
//! Each call runs on a stack of its own that is painted before. What calling
//! an empty function takes is subtracted.

use measure::contenders::{Contender, Job, Operation, VARIANTS};
use measure::stack::run;

fn main() {
    let empty = run(|| {}).depth();
    println!(
        "| variant | operation | message | contender | stack bytes | copies of the key left | copies of the message's last 16 bytes left |"
    );
    println!("|---:|---|---:|---|---:|---:|---:|");
    for variant in 0..VARIANTS.len() {
        for operation in Operation::ALL {
            for length in [64, 1 << 10] {
                for contender in Contender::original_and_port(operation).iter().copied() {
                    let mut job = Job::new(variant, operation, 32, length);
                    if operation == Operation::Open {
                        job.run(Contender::Rust);
                    }
                    let message = match operation {
                        Operation::Seal => job.input[length - 16..].to_vec(),
                        Operation::Open => job.output[length - 16..].to_vec(),
                    };
                    let left = run(|| job.run(contender));
                    println!(
                        "| {} | {} | {length} | {} | {} | {} | {} |",
                        variant + 1,
                        operation.name(),
                        contender.name(),
                        left.depth() - empty,
                        left.copies(&job.key),
                        left.copies(&message),
                    );
                }
            }
        }
    }
}
