//! Instructions of sealing and opening, counted by callgrind; tools/instructions
//! runs this program under it and reads the counts. Each count is written under
//! the name `variant,operation,header,message,contender`.

use std::ffi::CString;
use std::process::ExitCode;

use measure::contenders::{Contender, Job, Operation, VARIANTS};
use measure::valgrind;

const LENGTHS: [usize; 4] = [16, 64, 1 << 10, 16 << 10];
const HEADERS: [usize; 3] = [0, 32, 100];

fn main() -> ExitCode {
    if !valgrind::running() {
        eprintln!("this program counts under callgrind only: tools/instructions");
        return ExitCode::FAILURE;
    }
    for variant in 0..VARIANTS.len() {
        for operation in Operation::ALL {
            for header in HEADERS {
                for length in LENGTHS {
                    let mut job = Job::new(variant, operation, header, length);
                    for contender in Contender::original_and_port(operation).iter().copied() {
                        let name = format!(
                            "{},{},{header},{length},{}",
                            variant + 1,
                            operation.name(),
                            contender.name()
                        );
                        let name = CString::new(name).expect("no zero byte");
                        job.run(contender);
                        valgrind::zero_counts();
                        job.run(contender);
                        valgrind::write_counts(&name);
                    }
                }
            }
        }
    }
    ExitCode::SUCCESS
}
