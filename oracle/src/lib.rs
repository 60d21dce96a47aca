//! The original Rust as a judge: `format` and `reader` are the two files under test, unchanged, and the rest asks them.
//! The harness stands in the same crate since it needs fields that are `pub(crate)`.

pub mod answer;
mod error;
#[allow(dead_code)]
mod format;
pub mod generate;
#[allow(dead_code)]
mod reader;
pub mod wire;

use error::Error;
