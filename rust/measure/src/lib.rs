//! What sealing and opening cost, port and Rust original side by side: time
//! (`packets`, beside a plain C too), instructions (`instructions`), stack
//! (`stack`). The port is called through its host boundary (docs/HOST.md).
//! `open_whole` has the time of an opening that is whole or not at all beside the
//! other one's. `constant_time` looks for jumps and addresses that depend on
//! secrets. `calls` has the time of call lists as text beside the same calls
//! through the boundary.

pub mod c;
pub mod contenders;
pub mod rounds;
pub mod stack;
pub mod table;
pub mod valgrind;
