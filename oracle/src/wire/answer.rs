//! Answers: put on a line.

use super::number::{Float, Integer};
use super::words::{put_bytes, put_wide, put_word};

/// A refusal by its name in document 01 or 02, with its data.
#[derive(Debug, Clone, Copy, PartialEq, Eq)]
pub enum Refusal {
    IncompatibleVersion,
    InvalidKind(u8),
    UnknownSpecial(u64),
    Eof,
    TooManyBytesRead,
    UnsupportedByteCount(u8, u64),
    UnexpectedKind(u8, u8),
    ImpreciseCastWouldLoseData,
    NoRoom,
    TooLong,
    NotShortest,
}

impl Refusal {
    /// The number that its document gives it.
    #[must_use]
    pub const fn number(self) -> u64 {
        match self {
            Self::IncompatibleVersion => 1,
            Self::InvalidKind(..) => 2,
            Self::UnknownSpecial(..) => 3,
            Self::Eof => 4,
            Self::TooManyBytesRead => 5,
            Self::UnsupportedByteCount(..) => 6,
            Self::UnexpectedKind(..) => 7,
            Self::ImpreciseCastWouldLoseData => 8,
            Self::NoRoom => 9,
            Self::TooLong => 10,
            Self::NotShortest => 11,
        }
    }

    fn put_data(self, line: &mut Vec<u8>) {
        match self {
            Self::InvalidKind(code) => put_word(line, u64::from(code)),
            Self::UnknownSpecial(value) => put_word(line, value),
            Self::UnsupportedByteCount(kind, count) => {
                put_word(line, u64::from(kind));
                put_word(line, count);
            }
            Self::UnexpectedKind(kind, wanted) => {
                put_word(line, u64::from(kind));
                put_word(line, u64::from(wanted));
            }
            _ => {}
        }
    }
}

/// A string as it was delivered.
#[derive(Debug, Clone, Copy, PartialEq, Eq)]
pub enum Text<'a> {
    /// The bytes that stand in the scratch.
    Copied(&'a [u8]),
    /// A part of the source: its start and its length.
    Lent(u64, u64),
}

impl Text<'_> {
    fn put(self, line: &mut Vec<u8>) {
        match self {
            Self::Copied(bytes) => {
                put_word(line, 0);
                put_bytes(line, bytes);
            }
            Self::Lent(start, length) => {
                put_word(line, 1);
                put_word(line, start);
                put_word(line, length);
            }
        }
    }
}

/// Where an atom stands in its source: its first place, the place where its body starts and the place after it.
#[derive(Debug, Clone, Copy, Default, PartialEq, Eq)]
pub struct Places {
    pub first: u64,
    pub body: u64,
    pub after: u64,
}

impl Places {
    fn put(self, line: &mut Vec<u8>) {
        for place in [self.first, self.body, self.after] {
            put_word(line, place);
        }
    }
}

/// What an atom holds.
#[derive(Debug, Clone, Copy, PartialEq, Eq)]
pub enum Nucleus<'a> {
    None,
    Boolean(bool),
    Integer(Integer),
    Float(Float),
    Bytes(Text<'a>),
    Unit,
    Named,
    DynamicMap,
    DynamicEnd,
}

impl Nucleus<'_> {
    const fn tag(self) -> u64 {
        match self {
            Self::None => 0,
            Self::Boolean(..) => 1,
            Self::Integer(..) => 2,
            Self::Float(..) => 3,
            Self::Bytes(..) => 4,
            Self::Unit => 5,
            Self::Named => 6,
            Self::DynamicMap => 7,
            Self::DynamicEnd => 8,
        }
    }

    fn put(self, line: &mut Vec<u8>) {
        put_word(line, self.tag());
        match self {
            Self::Boolean(boolean) => put_word(line, u64::from(boolean)),
            Self::Integer(integer) => integer.put(line),
            Self::Float(float) => float.put(line),
            Self::Bytes(text) => text.put(line),
            _ => {}
        }
    }
}

/// The value of an answer that was not refused.
#[derive(Debug, Clone, Copy, PartialEq, Eq)]
pub enum Value<'a> {
    Nothing,
    Word(u64),
    Words(u64, u64),
    Wide(u128),
    Integer(Integer),
    Float(Float),
    Bytes(&'a [u8]),
    Text(Text<'a>),
    Atom(u8, u64, Places, Nucleus<'a>),
    /// Of an atom that was stepped over: its places, and whether it is a string.
    Step(Places, bool),
    Tally {
        atoms: u64,
        body: u64,
        charge: u64,
        letters: u64,
    },
}

impl Value<'_> {
    fn put(self, line: &mut Vec<u8>) {
        match self {
            Self::Nothing => {}
            Self::Word(word) => put_word(line, word),
            Self::Words(first, second) => {
                put_word(line, first);
                put_word(line, second);
            }
            Self::Wide(bits) => put_wide(line, bits),
            Self::Integer(integer) => integer.put(line),
            Self::Float(float) => float.put(line),
            Self::Bytes(bytes) => put_bytes(line, bytes),
            Self::Text(text) => text.put(line),
            Self::Atom(kind, arg, places, nucleus) => {
                put_word(line, u64::from(kind));
                put_word(line, arg);
                places.put(line);
                nucleus.put(line);
            }
            Self::Step(places, string) => {
                places.put(line);
                put_word(line, u64::from(string));
            }
            Self::Tally { atoms, body, charge, letters } => {
                for word in [atoms, body, charge, letters] {
                    put_word(line, word);
                }
            }
        }
    }
}

/// What stands between the first word and the value, refused or not.
#[derive(Debug, Clone, Copy, PartialEq, Eq)]
pub enum After {
    Nothing,
    Place(u64),
    PlaceAndBudget(u64, u64),
    /// Of a run also the number of atoms read, where the refused atom starts (the place, if none was refused), and the
    /// places of the last atom that was read.
    Run {
        place: u64,
        budget: u64,
        atoms: u64,
        start: u64,
        last: Places,
    },
    /// Of a tally the places of the last atom that was read.
    Last(Places),
    /// Of a tally that an atom stopped also where that one starts.
    LastAndStart(Places, u64),
}

impl After {
    fn put(self, line: &mut Vec<u8>) {
        match self {
            Self::Nothing => {}
            Self::Place(place) => put_word(line, place),
            Self::PlaceAndBudget(place, budget) => {
                put_word(line, place);
                put_word(line, budget);
            }
            Self::Run { place, budget, atoms, start, last } => {
                for word in [place, budget, atoms, start] {
                    put_word(line, word);
                }
                last.put(line);
            }
            Self::Last(last) => last.put(line),
            Self::LastAndStart(last, start) => {
                last.put(line);
                put_word(line, start);
            }
        }
    }
}

/// Why a request is outside the domain.
#[derive(Debug, Clone, Copy, PartialEq, Eq)]
pub enum Skip {
    /// A 24 or 48 bit writer is given a value outside its width.
    Width,
    /// A string or a buffer is longer than what can be reserved.
    Length,
}

/// The answer to a request.
#[derive(Debug, Clone, Copy, PartialEq, Eq)]
pub enum Answer<'a> {
    /// The request is outside the domain.
    Skipped(Skip),
    Given(After, Result<Value<'a>, Refusal>),
    /// The answers of several reads, put one after the other on a line.
    Several(&'a [u8]),
}

impl Answer<'_> {
    /// The whole line of a skipped request.
    pub const SKIPPED: &'static [u8] = b"-";

    /// Puts the answer on a line, without a line feed.
    pub fn put(&self, line: &mut Vec<u8>) {
        match self {
            Self::Skipped(_) => line.extend_from_slice(Self::SKIPPED),
            Self::Several(answers) => line.extend_from_slice(answers),
            Self::Given(after, outcome) => {
                put_word(line, outcome.err().map_or(0, Refusal::number));
                after.put(line);
                match outcome {
                    Ok(value) => value.put(line),
                    Err(refusal) => refusal.put_data(line),
                }
            }
        }
    }
}
