//! The line format of requests and answers, as `FORMAT.md` has it. It depends on nothing of the Rust under test, so
//! that any program that answers the same requests can take this folder as it is.

mod answer;
pub mod code;
mod number;
mod request;
mod sequence;
mod serve;
mod words;

pub use answer::{After, Answer, Nucleus, Places, Refusal, Skip, Text, Value};
pub use number::{Float, Integer, Variant, Writer};
pub use request::{Reading, Request, Way};
pub use sequence::{HeldRead, HeldReads};
pub use serve::{serve, Answers, Counts};
pub use words::{put_word, Malformed, Words};
