//! Call lists and answers in the bytes of docs/HOST.md: a writer of lists, a
//! writer and a reader of answers. Nothing is linked, run or decided here.

mod answer;
mod list;
mod wiped;

pub use answer::{Answer, Answers, HEAD as ANSWER_HEAD};
pub use list::{Direction, HEAD as CALL_HEAD, List};
pub use wiped::{Wiped, wipe};
