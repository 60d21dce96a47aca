//! Answers requests from the Rust under test.

mod casts;
mod check;
mod numbers;
mod readers;
mod sequence;
mod source;
mod whole;
mod writers;

use crate::format::{in_memory_int_size, update_budget, Kind, Special};
use crate::wire::{After, Answer, Answers, Refusal, Request, Value};
use crate::Error;
pub(crate) use writers::write;

/// How far a string under exact reading may run past its source before the request is skipped. The original reserves
/// the whole length first, so much more would cost time, and past some length it aborts.
pub const RESERVE: u64 = 1 << 22;

/// The buffers that answers are made in.
pub struct Oracle {
    scratch: Vec<u8>,
    written: Vec<u8>,
    reserve: u64,
}

impl Oracle {
    #[must_use]
    pub const fn new(reserve: u64) -> Self {
        Self { scratch: Vec::new(), written: Vec::new(), reserve }
    }
}

impl Answers for Oracle {
    /// Asks the entry that the request names.
    fn answer<'a>(&'a mut self, request: &Request<'a>) -> Answer<'a> {
        match request.code() {
            0x10 | 0x11 | 0x20..=0x26 => self.answer_reader(request),
            0x29..=0x2a => self.answer_whole(request),
            0x2b => self.answer_sequence(request),
            0x2c => self.answer_step(request),
            0x2d => self.answer_check(request),
            0x12 | 0x13 | 0x3e | 0x54 | 0x60..=0x7f => self.answer_writer(request),
            0x30..=0x55 => casts::answer_cast(request),
            _ => answer_code(request),
        }
    }
}

/// Kind and special codes, the charge and the budget.
fn answer_code(request: &Request<'_>) -> Answer<'static> {
    match *request {
        Request::KindFromU8(code) => plain(Kind::from_u8(code).map(|kind| Value::Word(kind as u64))),
        Request::SpecialTryFrom(value) => {
            plain(Special::try_from(value).map(|special| Value::Word(special as u64)).map_err(Error::from))
        }
        Request::UpdateBudget(budget, amount) => {
            let mut left = size(budget);
            let outcome = update_budget(&mut left, size(amount));
            plain(outcome.map(|()| Value::Word(left as u64)))
        }
        Request::InMemoryIntSize(count) => plain(Ok(Value::Word(in_memory_int_size(size(count)) as u64))),
        _ => unreachable!("every other code is answered elsewhere"),
    }
}

/// An answer that tells no place.
fn plain(outcome: Result<Value<'_>, Error>) -> Answer<'_> {
    Answer::Given(After::Nothing, outcome.map_err(Refusal::from))
}

/// A size as the original takes it. The oracle is a 64-bit build.
fn size(word: u64) -> usize {
    usize::try_from(word).expect("the oracle is a 64-bit build")
}

/// A kind by its code, which the wire has judged.
fn kind(code: u8) -> Kind {
    Kind::from_u8(code).unwrap_or_else(|_| unreachable!("the wire takes kinds from 0 to 7"))
}
