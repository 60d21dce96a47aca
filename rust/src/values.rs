use std::fmt;
use std::ops::Range;

use crate::calls::{self, Answer, Words};
use crate::ffi::{POT_AFTER, POT_BODY, POT_FIRST};
use crate::Refusal;

/// What a call answers that can be refused: something of its words.
pub(crate) fn answered<T>((number, w): Answer, of: impl FnOnce(Words) -> T) -> Result<T, Refusal> {
    match number {
        0 => Ok(of(w)),
        _ => Err(Refusal::of(number, w[0], w[1])),
    }
}

/// The kind of an atom.
#[derive(Clone, Copy, Debug, PartialEq, Eq, Hash)]
#[repr(u8)]
pub enum Kind {
    /// None, the unit, a boolean or a mark: the argument is its code.
    Special,
    /// A signed number; the argument is its bytes less one, as of the next two.
    Int,
    /// An unsigned number.
    UInt,
    /// A float.
    Float,
    /// A sequence: the argument is its length.
    Sequence,
    /// A map: the argument is the number of its pairs.
    Map,
    /// A symbol.
    Symbol,
    /// A string: the argument is its length.
    Bytes,
}

impl Kind {
    pub(crate) fn of(code: u64) -> Self {
        match code {
            0 => Self::Special,
            1 => Self::Int,
            2 => Self::UInt,
            3 => Self::Float,
            4 => Self::Sequence,
            5 => Self::Map,
            6 => Self::Symbol,
            7 => Self::Bytes,
            // The library is proved to answer no other, here and below.
            _ => unreachable!("no kind has the code {code}"),
        }
    }
}

/// A special: the argument of an atom of that kind.
#[derive(Clone, Copy, Debug, PartialEq, Eq, Hash)]
#[repr(u8)]
pub enum Special {
    /// No value.
    None,
    /// The unit.
    Unit,
    /// False.
    False,
    /// True.
    True,
    /// The mark of a named value.
    Named,
    /// The start of a map whose length is not said.
    DynamicMap,
    /// Its end.
    DynamicEnd,
}

/// An integer, by variant. Two are equal only if variant and value are. The casts go by variant too: each takes an integer
/// of the target's width or a narrower one, of either sign, if the value fits, and `TryFrom` is the same.
///
/// ```
/// use dimewagon::{Integer, Refusal};
///
/// assert_eq!(Integer::U8(200).as_i16(), Ok(200));
/// assert_eq!(u8::try_from(Integer::U8(200)), Ok(200));
/// assert_eq!(u8::try_from(Integer::I16(5)), Err(Refusal::ImpreciseCastWouldLoseData));
/// assert_eq!(Integer::I16(-129).to_string(), "-129");
/// ```
#[derive(Clone, Copy, Debug, PartialEq, Eq, Hash)]
pub enum Integer {
    /// Of 8 bits.
    I8(i8),
    /// Of 16 bits.
    I16(i16),
    /// Of 32 bits.
    I32(i32),
    /// Of 64 bits.
    I64(i64),
    /// Of 128 bits.
    I128(i128),
    /// Of 8 bits, without a sign.
    U8(u8),
    /// Of 16 bits, without a sign.
    U16(u16),
    /// Of 32 bits, without a sign.
    U32(u32),
    /// Of 64 bits, without a sign.
    U64(u64),
    /// Of 128 bits, without a sign.
    U128(u128),
}

/// The number of two words.
fn wide(low: u64, high: u64) -> u128 {
    u128::from(high) << 64 | u128::from(low)
}

impl Integer {
    pub(crate) fn of(variant: u64, low: u64, high: u64) -> Self {
        match variant {
            0 => Self::I8(low as i8),
            1 => Self::I16(low as i16),
            2 => Self::I32(low as i32),
            3 => Self::I64(low as i64),
            4 => Self::I128(wide(low, high) as i128),
            5 => Self::U8(low as u8),
            6 => Self::U16(low as u16),
            7 => Self::U32(low as u32),
            8 => Self::U64(low),
            9 => Self::U128(wide(low, high)),
            _ => unreachable!("no variant has the number {variant}"),
        }
    }

    /// The variant's number, the low and the high word.
    pub(crate) fn words(self) -> (u64, u64, u64) {
        let (variant, wide) = match self {
            Self::I8(v) => (0, v as u128),
            Self::I16(v) => (1, v as u128),
            Self::I32(v) => (2, v as u128),
            Self::I64(v) => (3, v as u128),
            Self::I128(v) => (4, v as u128),
            Self::U8(v) => (5, v.into()),
            Self::U16(v) => (6, v.into()),
            Self::U32(v) => (7, v.into()),
            Self::U64(v) => (8, v.into()),
            Self::U128(v) => (9, v),
        };
        (variant, wide as u64, (wide >> 64) as u64)
    }

    fn cast(self, to: u64) -> Result<u128, Refusal> {
        let (variant, low, high) = self.words();
        answered(calls::pot_integer_cast(to, variant, low, high), |w| wide(w[0], w[1]))
    }

    /// The value as an `f32`, if it is from -2^24 to 2^24 - 1 and its variant has at most 32 bits.
    ///
    /// ```
    /// assert_eq!(dimewagon::Integer::I32(-(1 << 24)).as_f32(), Ok(-16777216.0));
    /// assert!(dimewagon::Integer::I32(1 << 24).as_f32().is_err());
    /// ```
    pub fn as_f32(self) -> Result<f32, Refusal> {
        let (variant, low, high) = self.words();
        answered(calls::pot_integer_as_f32(variant, low, high), |w| f32::from_bits(w[0] as u32))
    }

    /// The value as an `f64`, if it is from -2^53 to 2^53 - 1 and its variant has at most 64 bits.
    ///
    /// ```
    /// assert_eq!(dimewagon::Integer::U16(300).as_f64(), Ok(300.0));
    /// assert!(dimewagon::Integer::I64(1 << 53).as_f64().is_err());
    /// ```
    pub fn as_f64(self) -> Result<f64, Refusal> {
        let (variant, low, high) = self.words();
        answered(calls::pot_integer_as_f64(variant, low, high), |w| f64::from_bits(w[0]))
    }
}

macro_rules! casts {
    ($($name:ident $type:ident $variant:ident $number:literal)*) => {
        impl Integer {
            $(
                #[doc = concat!("The value as ", stringify!($type), ", if its variant is no wider and the value fits.")]
                ///
                /// ```
                #[doc = concat!("assert_eq!(dimewagon::Integer::U8(7).", stringify!($name), "(), Ok(7));")]
                /// ```
                pub fn $name(self) -> Result<$type, Refusal> {
                    self.cast($number).map(|wide| wide as $type)
                }
            )*
        }

        impl fmt::Display for Integer {
            fn fmt(&self, f: &mut fmt::Formatter<'_>) -> fmt::Result {
                match self {
                    $(Self::$variant(value) => value.fmt(f),)*
                }
            }
        }
    };
}

casts! {
    as_i8 i8 I8 0
    as_i16 i16 I16 1
    as_i32 i32 I32 2
    as_i64 i64 I64 3
    as_i128 i128 I128 4
    as_u8 u8 U8 5
    as_u16 u16 U16 6
    as_u32 u32 U32 7
    as_u64 u64 U64 8
    as_u128 u128 U128 9
}

macro_rules! tries {
    ($($from:ident $to:ident $name:ident)*) => {
        $(
            impl TryFrom<$from> for $to {
                type Error = Refusal;

                fn try_from(value: $from) -> Result<Self, Refusal> {
                    value.$name()
                }
            }
        )*
    };
}

tries! {
    Integer i8 as_i8
    Integer i16 as_i16
    Integer i32 as_i32
    Integer i64 as_i64
    Integer i128 as_i128
    Integer u8 as_u8
    Integer u16 as_u16
    Integer u32 as_u32
    Integer u64 as_u64
    Integer u128 as_u128
    Integer f32 as_f32
    Integer f64 as_f64
    Float f32 as_f32
    Float Integer as_integer
}

/// A float, by width. A float of two bytes is an `F32`. Equality across widths widens the `F32`.
///
/// ```
/// use dimewagon::Float;
///
/// assert_eq!(Float::F32(1.5), Float::F64(1.5));
/// assert_eq!(Float::from(1.5_f32).to_string(), "1.5");
/// ```
#[derive(Clone, Copy, Debug)]
pub enum Float {
    /// Of 32 bits.
    F32(f32),
    /// Of 64 bits.
    F64(f64),
}

impl Float {
    /// The value as an `f64`; a NaN keeps its sign and its payload, with the quiet bit set.
    ///
    /// ```
    /// assert_eq!(dimewagon::Float::F32(1.5).as_f64(), 1.5);
    /// ```
    pub fn as_f64(self) -> f64 {
        match self {
            Self::F64(value) => value,
            Self::F32(value) => f64::from_bits(calls::pot_f32_as_f64(value.to_bits()).1[0]),
        }
    }

    /// The value as an `f32`, if there is an equal one.
    ///
    /// ```
    /// assert_eq!(dimewagon::Float::F64(1.5).as_f32(), Ok(1.5));
    /// assert!(dimewagon::Float::F64(0.1).as_f32().is_err());
    /// ```
    pub fn as_f32(self) -> Result<f32, Refusal> {
        match self {
            Self::F32(value) => Ok(value),
            Self::F64(value) => answered(calls::pot_f64_as_f32(value.to_bits()), |w| f32::from_bits(w[0] as u32)),
        }
    }

    /// The value as an integer, if it is whole or nearly zero, clamped to 32 bits of an `F32` and to 64 of an `F64`.
    ///
    /// ```
    /// use dimewagon::{Float, Integer, Refusal};
    ///
    /// assert_eq!(Float::F64(300.0).as_integer(), Ok(Integer::I16(300)));
    /// assert_eq!(Float::F64(0.5).as_integer(), Err(Refusal::ImpreciseCastWouldLoseData));
    /// ```
    pub fn as_integer(self) -> Result<Integer, Refusal> {
        let answer = match self {
            Self::F32(value) => calls::pot_f32_as_integer(value.to_bits()),
            Self::F64(value) => calls::pot_f64_as_integer(value.to_bits()),
        };
        answered(answer, |w| Integer::of(w[0], w[1], w[2]))
    }
}

impl PartialEq for Float {
    fn eq(&self, other: &Self) -> bool {
        self.as_f64() == other.as_f64()
    }
}

impl fmt::Display for Float {
    fn fmt(&self, f: &mut fmt::Formatter<'_>) -> fmt::Result {
        match self {
            Self::F32(value) => value.fmt(f),
            Self::F64(value) => value.fmt(f),
        }
    }
}

impl From<f32> for Float {
    fn from(value: f32) -> Self {
        Self::F32(value)
    }
}

impl From<f64> for Float {
    fn from(value: f64) -> Self {
        Self::F64(value)
    }
}

impl From<Float> for f64 {
    fn from(value: Float) -> Self {
        value.as_f64()
    }
}

/// What an atom holds.
#[derive(Clone, Copy, Debug, PartialEq)]
pub enum Nucleus<'a> {
    /// Nothing more: the special None, a sequence, a map or a symbol.
    None,
    /// A boolean.
    Boolean(bool),
    /// An integer.
    Integer(Integer),
    /// The value, and the bits as they are stored, of 2, 4 or 8 bytes.
    Float(Float, u64),
    /// A string, as a part of the source or of the scratch.
    Bytes(&'a [u8]),
    /// The unit.
    Unit,
    /// The mark of a named value.
    Named,
    /// The start of a map whose length is not said.
    DynamicMap,
    /// Its end.
    DynamicEnd,
}

impl<'a> Nucleus<'a> {
    pub(crate) fn of(w: &Words, bytes: &'a [u8]) -> Self {
        match w[4] {
            0 => Self::None,
            1 => Self::Boolean(w[5] == 1),
            2 => Self::Integer(Integer::of(w[5], w[6], w[7])),
            3 if w[5] == 4 => Self::Float(Float::F32(f32::from_bits(w[6] as u32)), w[7]),
            3 => Self::Float(Float::F64(f64::from_bits(w[6])), w[7]),
            4 => Self::Bytes(&bytes[w[5] as usize..][..w[6] as usize]),
            5 => Self::Unit,
            6 => Self::Named,
            7 => Self::DynamicMap,
            8 => Self::DynamicEnd,
            case => unreachable!("no case has the number {case}"),
        }
    }

    /// The string, if it is one.
    ///
    /// ```
    /// assert_eq!(dimewagon::Nucleus::Bytes(b"ab").bytes(), Some(&b"ab"[..]));
    /// ```
    pub fn bytes(self) -> Option<&'a [u8]> {
        match self {
            Self::Bytes(string) => Some(string),
            _ => None,
        }
    }

    /// The integer, if it is one.
    ///
    /// ```
    /// use dimewagon::{Integer, Nucleus};
    ///
    /// assert_eq!(Nucleus::Integer(Integer::U16(300)).integer(), Some(Integer::U16(300)));
    /// assert_eq!(Nucleus::Unit.integer(), None);
    /// ```
    pub fn integer(self) -> Option<Integer> {
        match self {
            Self::Integer(value) => Some(value),
            _ => None,
        }
    }

    /// The float, if it is one.
    ///
    /// ```
    /// use dimewagon::{Float, Nucleus};
    ///
    /// assert_eq!(Nucleus::Float(Float::F32(1.5), 0x3E00).float(), Some(Float::F32(1.5)));
    /// ```
    pub fn float(self) -> Option<Float> {
        match self {
            Self::Float(value, _) => Some(value),
            _ => None,
        }
    }
}

/// Where an atom stands in its source: three places, none below the one before, and ranges that index the source. All
/// three are 0 where there was no atom.
///
/// ```
/// use dimewagon::{Atoms, Places};
///
/// let source = [0x00, 0x51, 0x00, 0x2C, 0x01];
/// let number = Atoms::new(&source).nth(1).unwrap()?;
/// let Places { first, body, after, .. } = number.places;
/// assert_eq!((first, body, after), (1, 3, 5));
/// assert_eq!(source[number.places.body_range()], 300_u16.to_le_bytes());
/// # Ok::<(), dimewagon::Stopped>(())
/// ```
#[derive(Clone, Copy, Debug, Default, PartialEq, Eq, Hash)]
#[non_exhaustive]
pub struct Places {
    /// Its first place.
    pub first: usize,
    /// The place where its body starts, past its header; of an atom without a body, the place after it.
    pub body: usize,
    /// The place after it.
    pub after: usize,
}

impl Places {
    pub(crate) fn of(w: &Words) -> Self {
        Self { first: w[POT_FIRST] as usize, body: w[POT_BODY] as usize, after: w[POT_AFTER] as usize }
    }

    /// Its bytes.
    ///
    /// ```
    /// let source = [0x00, 0xE2, 0x61, 0x62, 0x01];
    /// let string = dimewagon::read_atom(&source, 1, 9)?.atom;
    /// assert_eq!(source[string.places.range()], [0xE2, 0x61, 0x62]);
    /// # Ok::<(), dimewagon::Stopped>(())
    /// ```
    pub fn range(self) -> Range<usize> {
        self.first..self.after
    }

    /// The bytes of its header.
    ///
    /// ```
    /// let source = [0x00, 0xE2, 0x61, 0x62, 0x01];
    /// let string = dimewagon::read_atom(&source, 1, 9)?.atom;
    /// assert_eq!(source[string.places.header_range()], [0xE2]);
    /// # Ok::<(), dimewagon::Stopped>(())
    /// ```
    pub fn header_range(self) -> Range<usize> {
        self.first..self.body
    }

    /// The bytes of its body: a number as it is stored, a string, or none.
    ///
    /// ```
    /// let source = [0x00, 0xE2, 0x61, 0x62, 0x01];
    /// let string = dimewagon::read_atom(&source, 1, 9)?.atom;
    /// assert_eq!(source[string.places.body_range()], [0x61, 0x62]);
    /// # Ok::<(), dimewagon::Stopped>(())
    /// ```
    pub fn body_range(self) -> Range<usize> {
        self.body..self.after
    }
}

/// A kind, its argument, its places, and the value that follows, if any. Two are equal only if their places are too:
/// kind, argument and nucleus say whether they hold the same.
///
/// ```
/// let source = [0x40, 0x05, 0x40, 0x05];
/// let atoms: Vec<_> = dimewagon::Atoms::new(&source).collect::<Result<_, _>>()?;
/// assert_eq!((atoms[0].places.range(), atoms[1].places.range()), (0..2, 2..4));
/// assert_eq!(atoms[0].nucleus, atoms[1].nucleus);
/// assert_ne!(atoms[0], atoms[1]);
/// # Ok::<(), dimewagon::Stopped>(())
/// ```
#[derive(Clone, Copy, Debug, PartialEq)]
#[non_exhaustive]
pub struct Atom<'a> {
    /// The kind.
    pub kind: Kind,
    /// The argument.
    pub arg: u64,
    /// Where it stands in the source.
    pub places: Places,
    /// What it holds.
    pub nucleus: Nucleus<'a>,
}
