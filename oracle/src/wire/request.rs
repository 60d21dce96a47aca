//! Requests: parsed from a line, put on a line.

use super::code;
use super::number::{single, value_of, Float, Integer, Variant, Writer};
use super::sequence::HeldReads;
use super::words::{put_bytes, put_wide, put_word, Malformed, Words};

/// The way of reading. The original has the first and the third.
#[derive(Debug, Clone, Copy, PartialEq, Eq)]
pub enum Way {
    Filled,
    ExactLent,
    ExactCopied,
    /// No way is named. Document 02, K4: such an entry reads exactly, strings lent.
    Unnamed,
}

impl Way {
    pub const ALL: [Self; 4] = [Self::Filled, Self::ExactLent, Self::ExactCopied, Self::Unnamed];
    pub const NAMED: [Self; 3] = [Self::Filled, Self::ExactLent, Self::ExactCopied];

    /// The ways that a request of this code may have: three entries also stand without a way.
    #[must_use]
    pub const fn of(code: u8) -> &'static [Self] {
        match code {
            code::READ_ATOM_HEADER | code::READ_HEADER | code::READ_ATOM => &Self::ALL,
            _ => &Self::NAMED,
        }
    }
}

/// What a reader is given: a way, a place and a source.
#[derive(Debug, Clone, Copy, PartialEq, Eq)]
pub struct Reading<'a> {
    pub way: Way,
    pub place: u64,
    pub source: &'a [u8],
}

impl<'a> Reading<'a> {
    fn parse(code: u8, words: &mut Words<'_>, buffer: &'a mut Vec<u8>) -> Result<Self, Malformed> {
        let ways = Way::of(code);
        let way = ways[usize::from(words.below(ways.len() as u64)?)];
        let place = words.word()?;
        let source = words.bytes(buffer)?;
        Ok(Self { way, place, source })
    }

    fn put(&self, line: &mut Vec<u8>) {
        put_word(line, self.way as u64);
        put_word(line, self.place);
        put_bytes(line, self.source);
    }

    /// The place, at most the length of the source.
    #[must_use]
    pub fn start(&self) -> usize {
        usize::try_from(self.place).map_or(self.source.len(), |place| place.min(self.source.len()))
    }

    /// What stands from the place on.
    #[must_use]
    pub fn rest(&self) -> &'a [u8] {
        &self.source[self.start()..]
    }
}

/// A question to one entry. Kinds, specials and versions travel as their codes.
#[derive(Debug, Clone, Copy, PartialEq, Eq)]
pub enum Request<'a> {
    KindFromU8(u8),
    SpecialTryFrom(u64),
    ReadAtomHeader(Reading<'a>),
    ReadHeader(Reading<'a>),
    WriteAtomHeader(u8, u64),
    WriteHeader(u8),
    ReadAtom(u64, Reading<'a>),
    IntegerReadFrom(u8, u64, Reading<'a>),
    FloatReadFrom(u8, u64, Reading<'a>),
    BufferedReadBytes(u64, Reading<'a>),
    Read(u64, Reading<'a>),
    ReadExact(u64, Reading<'a>),
    Remaining(Reading<'a>),
    UpdateBudget(u64, u64),
    InMemoryIntSize(u64),
    Run(u64, &'a [u8]),
    Tally(&'a [u8]),
    Sequence(u64, &'a [u8], HeldReads),
    /// A budget, a place and a source: the atom there is read exactly, and its value forgotten.
    Step(u64, u64, &'a [u8]),
    Check(&'a [u8]),
    IntegerAs(Variant, Integer),
    IntegerAsF32(Integer),
    IntegerAsF64(Integer),
    IntegerAsFloat(Integer),
    IntegerIsZero(Integer),
    IntegerWriteTo(Integer),
    IntegerEqual(Integer, Integer),
    IntegerFrom(Variant, u128),
    FloatIsZero(Float),
    FloatAsF32(Float),
    FloatAsF64(Float),
    FloatAsInteger(Float),
    FloatWriteTo(Float),
    FloatEqual(Float, Float),
    WriteInteger(Writer, u128),
    WriteSpecial(u8),
    WriteNone,
    WriteUnit,
    WriteNamed,
    WriteBool(bool),
    WriteBytes(&'a [u8]),
    WriteF32(u32),
    WriteF64(u64),
}

impl<'a> Request<'a> {
    /// Parses a line, without its line feed. The bytes of a source go into `buffer`.
    pub fn parse(line: &[u8], buffer: &'a mut Vec<u8>) -> Result<Self, Malformed> {
        let mut words = Words::new(line);
        let code = words.below(0x100)?;
        let request = match code {
            0x00..=0x1f => Self::parse_header(code, &mut words, buffer),
            0x20..=0x2f => Self::parse_reader(code, &mut words, buffer),
            0x30..=0x4f => Self::parse_integer(code, &mut words),
            0x50..=0x5f => Self::parse_float(code, &mut words),
            _ => Self::parse_writer(code, &mut words, buffer),
        }?;
        words.end()?;
        Ok(request)
    }

    fn parse_header(code: u8, words: &mut Words<'_>, buffer: &'a mut Vec<u8>) -> Result<Self, Malformed> {
        Ok(match code {
            code::KIND_FROM_U8 => Self::KindFromU8(words.below(0x100)?),
            code::SPECIAL_TRY_FROM => Self::SpecialTryFrom(words.word()?),
            code::READ_ATOM_HEADER => Self::ReadAtomHeader(Reading::parse(code, words, buffer)?),
            code::READ_HEADER => Self::ReadHeader(Reading::parse(code, words, buffer)?),
            code::WRITE_ATOM_HEADER => Self::WriteAtomHeader(words.below(8)?, words.word()?),
            code::WRITE_HEADER => Self::WriteHeader(words.below(0x100)?),
            _ => return Err(UNKNOWN_CODE),
        })
    }

    fn parse_reader(code: u8, words: &mut Words<'_>, buffer: &'a mut Vec<u8>) -> Result<Self, Malformed> {
        Ok(match code {
            code::READ_ATOM => Self::ReadAtom(words.word()?, Reading::parse(code, words, buffer)?),
            code::INTEGER_READ_FROM => {
                Self::IntegerReadFrom(words.below(8)?, words.word()?, Reading::parse(code, words, buffer)?)
            }
            code::FLOAT_READ_FROM => {
                Self::FloatReadFrom(words.below(8)?, words.word()?, Reading::parse(code, words, buffer)?)
            }
            code::BUFFERED_READ_BYTES => Self::BufferedReadBytes(words.word()?, Reading::parse(code, words, buffer)?),
            code::READ => Self::Read(words.word()?, Reading::parse(code, words, buffer)?),
            code::READ_EXACT => Self::ReadExact(words.word()?, Reading::parse(code, words, buffer)?),
            code::REMAINING => Self::Remaining(Reading::parse(code, words, buffer)?),
            code::UPDATE_BUDGET => Self::UpdateBudget(words.word()?, words.word()?),
            code::IN_MEMORY_INT_SIZE => Self::InMemoryIntSize(words.word()?),
            code::RUN => Self::Run(words.word()?, words.bytes(buffer)?),
            code::TALLY => Self::Tally(words.bytes(buffer)?),
            code::SEQUENCE => Self::Sequence(words.word()?, words.bytes(buffer)?, HeldReads::parse(words)?),
            code::STEP => Self::Step(words.word()?, words.word()?, words.bytes(buffer)?),
            code::CHECK => Self::Check(words.bytes(buffer)?),
            _ => return Err(UNKNOWN_CODE),
        })
    }

    fn parse_integer(code: u8, words: &mut Words<'_>) -> Result<Self, Malformed> {
        Ok(match code {
            0x30..=0x39 => Self::IntegerAs(by_variant(code, code::INTEGER_AS), Integer::parse(words)?),
            code::INTEGER_AS_F32 => Self::IntegerAsF32(Integer::parse(words)?),
            code::INTEGER_AS_F64 => Self::IntegerAsF64(Integer::parse(words)?),
            code::INTEGER_AS_FLOAT => Self::IntegerAsFloat(Integer::parse(words)?),
            code::INTEGER_IS_ZERO => Self::IntegerIsZero(Integer::parse(words)?),
            code::INTEGER_WRITE_TO => Self::IntegerWriteTo(Integer::parse(words)?),
            code::INTEGER_EQUAL => Self::IntegerEqual(Integer::parse(words)?, Integer::parse(words)?),
            0x40..=0x49 => {
                let variant = by_variant(code, code::INTEGER_FROM);
                Self::IntegerFrom(variant, value_of(words, variant)?)
            }
            _ => return Err(UNKNOWN_CODE),
        })
    }

    fn parse_float(code: u8, words: &mut Words<'_>) -> Result<Self, Malformed> {
        Ok(match code {
            code::FLOAT_IS_ZERO => Self::FloatIsZero(Float::parse(words)?),
            code::FLOAT_AS_F32 => Self::FloatAsF32(Float::parse(words)?),
            code::FLOAT_AS_F64 => Self::FloatAsF64(Float::parse(words)?),
            code::FLOAT_AS_INTEGER => Self::FloatAsInteger(Float::parse(words)?),
            code::FLOAT_WRITE_TO => Self::FloatWriteTo(Float::parse(words)?),
            code::FLOAT_EQUAL => Self::FloatEqual(Float::parse(words)?, Float::parse(words)?),
            _ => return Err(UNKNOWN_CODE),
        })
    }

    fn parse_writer(code: u8, words: &mut Words<'_>, buffer: &'a mut Vec<u8>) -> Result<Self, Malformed> {
        Ok(match code {
            0x60..=0x6d => {
                let writer = Writer::ALL[usize::from(code - code::WRITE_INTEGER)];
                Self::WriteInteger(writer, value_of(words, writer.takes())?)
            }
            code::WRITE_SPECIAL => Self::WriteSpecial(words.below(7)?),
            code::WRITE_NONE => Self::WriteNone,
            code::WRITE_UNIT => Self::WriteUnit,
            code::WRITE_NAMED => Self::WriteNamed,
            code::WRITE_BOOL => Self::WriteBool(words.below(2)? == 1),
            code::WRITE_BYTES => Self::WriteBytes(words.bytes(buffer)?),
            code::WRITE_F32 => Self::WriteF32(single(words)?),
            code::WRITE_F64 => Self::WriteF64(words.word()?),
            _ => return Err(UNKNOWN_CODE),
        })
    }

    /// The request's code.
    #[must_use]
    pub const fn code(&self) -> u8 {
        match self {
            Self::KindFromU8(..) => code::KIND_FROM_U8,
            Self::SpecialTryFrom(..) => code::SPECIAL_TRY_FROM,
            Self::ReadAtomHeader(..) => code::READ_ATOM_HEADER,
            Self::ReadHeader(..) => code::READ_HEADER,
            Self::WriteAtomHeader(..) => code::WRITE_ATOM_HEADER,
            Self::WriteHeader(..) => code::WRITE_HEADER,
            Self::ReadAtom(..) => code::READ_ATOM,
            Self::IntegerReadFrom(..) => code::INTEGER_READ_FROM,
            Self::FloatReadFrom(..) => code::FLOAT_READ_FROM,
            Self::BufferedReadBytes(..) => code::BUFFERED_READ_BYTES,
            Self::Read(..) => code::READ,
            Self::ReadExact(..) => code::READ_EXACT,
            Self::Remaining(..) => code::REMAINING,
            Self::UpdateBudget(..) => code::UPDATE_BUDGET,
            Self::InMemoryIntSize(..) => code::IN_MEMORY_INT_SIZE,
            Self::Run(..) => code::RUN,
            Self::Tally(..) => code::TALLY,
            Self::Sequence(..) => code::SEQUENCE,
            Self::Step(..) => code::STEP,
            Self::Check(..) => code::CHECK,
            Self::IntegerAs(variant, _) => code::INTEGER_AS + *variant as u8,
            Self::IntegerAsF32(..) => code::INTEGER_AS_F32,
            Self::IntegerAsF64(..) => code::INTEGER_AS_F64,
            Self::IntegerAsFloat(..) => code::INTEGER_AS_FLOAT,
            Self::IntegerIsZero(..) => code::INTEGER_IS_ZERO,
            Self::IntegerWriteTo(..) => code::INTEGER_WRITE_TO,
            Self::IntegerEqual(..) => code::INTEGER_EQUAL,
            Self::IntegerFrom(variant, _) => code::INTEGER_FROM + *variant as u8,
            Self::FloatIsZero(..) => code::FLOAT_IS_ZERO,
            Self::FloatAsF32(..) => code::FLOAT_AS_F32,
            Self::FloatAsF64(..) => code::FLOAT_AS_F64,
            Self::FloatAsInteger(..) => code::FLOAT_AS_INTEGER,
            Self::FloatWriteTo(..) => code::FLOAT_WRITE_TO,
            Self::FloatEqual(..) => code::FLOAT_EQUAL,
            Self::WriteInteger(writer, _) => code::WRITE_INTEGER + *writer as u8,
            Self::WriteSpecial(..) => code::WRITE_SPECIAL,
            Self::WriteNone => code::WRITE_NONE,
            Self::WriteUnit => code::WRITE_UNIT,
            Self::WriteNamed => code::WRITE_NAMED,
            Self::WriteBool(..) => code::WRITE_BOOL,
            Self::WriteBytes(..) => code::WRITE_BYTES,
            Self::WriteF32(..) => code::WRITE_F32,
            Self::WriteF64(..) => code::WRITE_F64,
        }
    }

    /// Puts the request on an empty line, without a line feed.
    pub fn put(&self, line: &mut Vec<u8>) {
        put_word(line, u64::from(self.code()));
        match *self {
            Self::KindFromU8(byte) | Self::WriteHeader(byte) | Self::WriteSpecial(byte) => {
                put_word(line, u64::from(byte));
            }
            Self::SpecialTryFrom(word) | Self::InMemoryIntSize(word) | Self::WriteF64(word) => put_word(line, word),
            Self::WriteF32(bits) => put_word(line, u64::from(bits)),
            Self::WriteBool(boolean) => put_word(line, u64::from(boolean)),
            Self::WriteAtomHeader(kind, arg) => {
                put_word(line, u64::from(kind));
                put_word(line, arg);
            }
            Self::UpdateBudget(budget, amount) => {
                put_word(line, budget);
                put_word(line, amount);
            }
            Self::ReadAtomHeader(reading) | Self::ReadHeader(reading) | Self::Remaining(reading) => reading.put(line),
            Self::ReadAtom(word, reading)
            | Self::BufferedReadBytes(word, reading)
            | Self::Read(word, reading)
            | Self::ReadExact(word, reading) => {
                put_word(line, word);
                reading.put(line);
            }
            Self::IntegerReadFrom(kind, count, reading) | Self::FloatReadFrom(kind, count, reading) => {
                put_word(line, u64::from(kind));
                put_word(line, count);
                reading.put(line);
            }
            Self::Run(budget, source) => {
                put_word(line, budget);
                put_bytes(line, source);
            }
            Self::Sequence(budget, source, reads) => {
                put_word(line, budget);
                put_bytes(line, source);
                reads.put(line);
            }
            Self::Step(budget, place, source) => {
                put_word(line, budget);
                put_word(line, place);
                put_bytes(line, source);
            }
            Self::Tally(bytes) | Self::Check(bytes) | Self::WriteBytes(bytes) => put_bytes(line, bytes),
            Self::IntegerAs(_, integer)
            | Self::IntegerAsF32(integer)
            | Self::IntegerAsF64(integer)
            | Self::IntegerAsFloat(integer)
            | Self::IntegerIsZero(integer)
            | Self::IntegerWriteTo(integer) => integer.put(line),
            Self::IntegerEqual(left, right) => {
                left.put(line);
                right.put(line);
            }
            Self::IntegerFrom(_, bits) | Self::WriteInteger(_, bits) => put_wide(line, bits),
            Self::FloatIsZero(float)
            | Self::FloatAsF32(float)
            | Self::FloatAsF64(float)
            | Self::FloatAsInteger(float)
            | Self::FloatWriteTo(float) => float.put(line),
            Self::FloatEqual(left, right) => {
                left.put(line);
                right.put(line);
            }
            Self::WriteNone | Self::WriteUnit | Self::WriteNamed => {}
        }
    }
}

const UNKNOWN_CODE: Malformed = Malformed("no request has this code");

fn by_variant(code: u8, first: u8) -> Variant {
    Variant::ALL[usize::from(code - first)]
}
