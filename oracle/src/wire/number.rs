//! Integers by variant, floats by their bits, and the widths that writers take.

use super::words::{put_wide, put_word, Malformed, Words};

/// The variant of an integer, in the order of the original's enum; its place in the order is its number.
#[derive(Debug, Clone, Copy, PartialEq, Eq)]
pub enum Variant {
    I8,
    I16,
    I32,
    I64,
    I128,
    U8,
    U16,
    U32,
    U64,
    U128,
}

impl Variant {
    pub const ALL: [Self; 10] =
        [Self::I8, Self::I16, Self::I32, Self::I64, Self::I128, Self::U8, Self::U16, Self::U32, Self::U64, Self::U128];

    #[must_use]
    pub const fn signed(self) -> bool {
        (self as u8) < Self::U8 as u8
    }

    /// The width in bits.
    #[must_use]
    pub const fn width(self) -> u32 {
        8 << (self as u32 % 5)
    }

    /// Whether 128 bits are a value of this variant, sign extended.
    #[must_use]
    pub const fn holds(self, bits: u128) -> bool {
        holds(self.signed(), self.width(), bits)
    }
}

/// Whether 128 bits are a number of `width` bits, sign extended if it is signed.
const fn holds(signed: bool, width: u32, bits: u128) -> bool {
    let spare = 128 - width;
    if signed {
        ((bits << spare) as i128 >> spare) as u128 == bits
    } else {
        bits << spare >> spare == bits
    }
}

/// An integer: a variant, and the value's 128 bits in two's complement.
#[derive(Debug, Clone, Copy, PartialEq, Eq)]
pub struct Integer {
    pub variant: Variant,
    pub bits: u128,
}

impl Integer {
    pub(super) fn parse(words: &mut Words<'_>) -> Result<Self, Malformed> {
        let variant = Variant::ALL[usize::from(words.below(10)?)];
        let bits = value_of(words, variant)?;
        Ok(Self { variant, bits })
    }

    pub(super) fn put(self, line: &mut Vec<u8>) {
        put_word(line, self.variant as u64);
        put_wide(line, self.bits);
    }
}

/// A value of the variant's type: two words.
pub(super) fn value_of(words: &mut Words<'_>, variant: Variant) -> Result<u128, Malformed> {
    let bits = words.wide()?;
    if variant.holds(bits) {
        Ok(bits)
    } else {
        Err(Malformed("a value is outside its type"))
    }
}

/// A float, by its bits.
#[derive(Debug, Clone, Copy, PartialEq, Eq)]
pub enum Float {
    F32(u32),
    F64(u64),
}

impl Float {
    pub(super) fn parse(words: &mut Words<'_>) -> Result<Self, Malformed> {
        match words.word()? {
            4 => Ok(Self::F32(single(words)?)),
            8 => Ok(Self::F64(words.word()?)),
            _ => Err(Malformed("a float has 4 or 8 bytes")),
        }
    }

    pub(super) fn put(self, line: &mut Vec<u8>) {
        match self {
            Self::F32(bits) => {
                put_word(line, 4);
                put_word(line, u64::from(bits));
            }
            Self::F64(bits) => {
                put_word(line, 8);
                put_word(line, bits);
            }
        }
    }
}

/// The bits of a binary32.
pub(super) fn single(words: &mut Words<'_>) -> Result<u32, Malformed> {
    u32::try_from(words.word()?).map_err(|_| Malformed("a binary32 has 32 bits"))
}

/// The integer writers, in the order of their codes.
#[derive(Debug, Clone, Copy, PartialEq, Eq)]
pub enum Writer {
    I8,
    I16,
    I24,
    I32,
    I48,
    I64,
    I128,
    U8,
    U16,
    U24,
    U32,
    U48,
    U64,
    U128,
}

impl Writer {
    pub const ALL: [Self; 14] = [
        Self::I8,
        Self::I16,
        Self::I24,
        Self::I32,
        Self::I48,
        Self::I64,
        Self::I128,
        Self::U8,
        Self::U16,
        Self::U24,
        Self::U32,
        Self::U48,
        Self::U64,
        Self::U128,
    ];

    /// The type of its argument: a 24 bit writer takes 32 bits, a 48 bit one 64.
    #[must_use]
    pub const fn takes(self) -> Variant {
        match self {
            Self::I8 => Variant::I8,
            Self::I16 => Variant::I16,
            Self::I24 | Self::I32 => Variant::I32,
            Self::I48 | Self::I64 => Variant::I64,
            Self::I128 => Variant::I128,
            Self::U8 => Variant::U8,
            Self::U16 => Variant::U16,
            Self::U24 | Self::U32 => Variant::U32,
            Self::U48 | Self::U64 => Variant::U64,
            Self::U128 => Variant::U128,
        }
    }

    /// The width in bits of the largest number that it writes.
    #[must_use]
    pub const fn width(self) -> u32 {
        match self {
            Self::I24 | Self::U24 => 24,
            Self::I48 | Self::U48 => 48,
            _ => self.takes().width(),
        }
    }

    /// Whether the value is inside the writer's own width: only then has document 01 an oracle for it.
    #[must_use]
    pub const fn holds(self, bits: u128) -> bool {
        holds(self.takes().signed(), self.width(), bits)
    }
}
