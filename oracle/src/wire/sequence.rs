//! The reads that one reader is asked for in turn.

use super::code;
use super::words::{put_word, Malformed, Words};

/// A read of what a reader still holds. An atom is charged to the budget that the one before it left.
#[derive(Debug, Clone, Copy, PartialEq, Eq)]
pub enum HeldRead {
    Atom,
    Integer(u8, u64),
    Float(u8, u64),
    Bytes(u64),
    Remaining,
}

impl HeldRead {
    fn parse(words: &mut Words<'_>) -> Result<Self, Malformed> {
        Ok(match words.below(0x100)? {
            code::READ_ATOM => Self::Atom,
            code::INTEGER_READ_FROM => Self::Integer(words.below(8)?, words.word()?),
            code::FLOAT_READ_FROM => Self::Float(words.below(8)?, words.word()?),
            code::BUFFERED_READ_BYTES => Self::Bytes(words.word()?),
            code::REMAINING => Self::Remaining,
            _ => return Err(Malformed("no read of a sequence has this code")),
        })
    }

    /// The code of the request that asks for this read alone.
    const fn code(self) -> u8 {
        match self {
            Self::Atom => code::READ_ATOM,
            Self::Integer(..) => code::INTEGER_READ_FROM,
            Self::Float(..) => code::FLOAT_READ_FROM,
            Self::Bytes(..) => code::BUFFERED_READ_BYTES,
            Self::Remaining => code::REMAINING,
        }
    }

    fn put(self, line: &mut Vec<u8>) {
        put_word(line, u64::from(self.code()));
        match self {
            Self::Integer(kind, count) | Self::Float(kind, count) => {
                put_word(line, u64::from(kind));
                put_word(line, count);
            }
            Self::Bytes(length) => put_word(line, length),
            Self::Atom | Self::Remaining => {}
        }
    }
}

/// A few reads in their order.
#[derive(Debug, Clone, Copy, PartialEq, Eq)]
pub struct HeldReads {
    reads: [HeldRead; Self::MOST],
    count: usize,
}

impl HeldReads {
    /// The most that a sequence has.
    pub const MOST: usize = 8;

    /// As many reads as are handed in, and no more than a sequence has.
    pub fn new(reads: impl IntoIterator<Item = HeldRead>) -> Self {
        let mut all = Self { reads: [HeldRead::Remaining; Self::MOST], count: 0 };
        for read in reads.into_iter().take(Self::MOST) {
            all.reads[all.count] = read;
            all.count += 1;
        }
        all
    }

    #[must_use]
    pub fn all(&self) -> &[HeldRead] {
        &self.reads[..self.count]
    }

    pub(super) fn parse(words: &mut Words<'_>) -> Result<Self, Malformed> {
        let count = words.below(Self::MOST as u64 + 1)?;
        let reads = (0..count).map(|_| HeldRead::parse(words)).collect::<Result<Vec<_>, _>>()?;
        Ok(Self::new(reads))
    }

    pub(super) fn put(&self, line: &mut Vec<u8>) {
        put_word(line, self.count as u64);
        for read in self.all() {
            read.put(line);
        }
    }
}
