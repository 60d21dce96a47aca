//! The error that the two files name, and its number in document 01.

use std::io;

use crate::format::{Kind, UnknownSpecial};
use crate::wire::Refusal;

#[derive(Debug)]
pub enum Error {
    IncompatibleVersion,
    InvalidKind(u8),
    UnknownSpecial(u64),
    Eof,
    TooManyBytesRead,
    UnsupportedByteCount(Kind, usize),
    UnexpectedKind(Kind, Kind),
    ImpreciseCastWouldLoseData,
}

impl From<io::Error> for Error {
    fn from(error: io::Error) -> Self {
        match error.kind() {
            io::ErrorKind::UnexpectedEof => Self::Eof,
            other => unreachable!("a slice in memory fails at its end only, not with {other}"),
        }
    }
}

impl From<UnknownSpecial> for Error {
    fn from(unknown: UnknownSpecial) -> Self {
        Self::UnknownSpecial(unknown.0)
    }
}

impl From<Error> for Refusal {
    fn from(error: Error) -> Self {
        match error {
            Error::IncompatibleVersion => Self::IncompatibleVersion,
            Error::InvalidKind(code) => Self::InvalidKind(code),
            Error::UnknownSpecial(value) => Self::UnknownSpecial(value),
            Error::Eof => Self::Eof,
            Error::TooManyBytesRead => Self::TooManyBytesRead,
            Error::UnsupportedByteCount(kind, count) => Self::UnsupportedByteCount(kind as u8, count as u64),
            Error::UnexpectedKind(kind, wanted) => Self::UnexpectedKind(kind as u8, wanted as u8),
            Error::ImpreciseCastWouldLoseData => Self::ImpreciseCastWouldLoseData,
        }
    }
}
