use std::error::Error;
use std::fmt;

use crate::{Kind, Places};

/// Why something was refused. Each refusal has a number, the same in every language, and its text begins with it.
///
/// ```
/// use dimewagon::Refusal;
///
/// assert_eq!(Refusal::Eof.to_string(), "refusal 4: the input ends");
/// ```
#[derive(Clone, Copy, Debug, PartialEq, Eq, Hash)]
#[non_exhaustive]
pub enum Refusal {
    /// 1: the bits of the signature are missing.
    IncompatibleVersion,
    /// 2: a code that no kind has.
    InvalidKind(u64),
    /// 3: a code that no special has.
    UnknownSpecial(u64),
    /// 4: the input ends.
    Eof,
    /// 5: the charge exceeds the budget.
    TooManyBytesRead,
    /// 6: a number of a width that is not allowed, by its kind and its bytes.
    UnsupportedByteCount(Kind, u64),
    /// 7: a number of another kind than the one wanted.
    UnexpectedKind(Kind, Kind),
    /// 8: a cast that would lose data, or a value that its writer does not hold.
    ImpreciseCastWouldLoseData,
    /// 9: the output, or the scratch, is too short. Match it as `NoRoom { .. }`, since it may come to say how much is needed.
    #[non_exhaustive]
    NoRoom,
    /// 10: the input of a tally has more than 16,777,216 bytes.
    TooLong,
    /// 11: an atom, whole and known, that takes more bytes than it needs.
    NotShortest,
}

impl Refusal {
    /// The refusal of a number and its data.
    pub(crate) fn of(number: u64, first: u64, second: u64) -> Self {
        match number {
            1 => Self::IncompatibleVersion,
            2 => Self::InvalidKind(first),
            3 => Self::UnknownSpecial(first),
            4 => Self::Eof,
            5 => Self::TooManyBytesRead,
            6 => Self::UnsupportedByteCount(Kind::of(first), second),
            7 => Self::UnexpectedKind(Kind::of(first), Kind::of(second)),
            8 => Self::ImpreciseCastWouldLoseData,
            9 => Self::NoRoom,
            10 => Self::TooLong,
            11 => Self::NotShortest,
            // The library is proved to answer no other.
            _ => unreachable!("no refusal has the number {number}"),
        }
    }

    /// The refusal's number.
    ///
    /// ```
    /// let refusal = dimewagon::write_none(&mut []).unwrap_err();
    /// assert!(matches!(refusal, dimewagon::Refusal::NoRoom { .. }));
    /// assert_eq!(refusal.number(), 9);
    /// ```
    pub fn number(self) -> u64 {
        match self {
            Self::IncompatibleVersion => 1,
            Self::InvalidKind(_) => 2,
            Self::UnknownSpecial(_) => 3,
            Self::Eof => 4,
            Self::TooManyBytesRead => 5,
            Self::UnsupportedByteCount(..) => 6,
            Self::UnexpectedKind(..) => 7,
            Self::ImpreciseCastWouldLoseData => 8,
            Self::NoRoom => 9,
            Self::TooLong => 10,
            Self::NotShortest => 11,
        }
    }

    fn reason(self, f: &mut fmt::Formatter<'_>) -> fmt::Result {
        match self {
            Self::IncompatibleVersion => f.write_str("incompatible version"),
            Self::InvalidKind(code) => write!(f, "invalid kind {code}"),
            Self::UnknownSpecial(code) => write!(f, "unknown special {code}"),
            Self::Eof => f.write_str("the input ends"),
            Self::TooManyBytesRead => f.write_str("the budget is exceeded"),
            Self::UnsupportedByteCount(kind, count) => write!(f, "{kind:?} of {count} bytes"),
            Self::UnexpectedKind(kind, wanted) => write!(f, "{kind:?} where {wanted:?} is wanted"),
            Self::ImpreciseCastWouldLoseData => f.write_str("the cast would lose data"),
            Self::NoRoom => f.write_str("no room"),
            Self::TooLong => f.write_str("the input is too long"),
            Self::NotShortest => f.write_str("not in shortest form"),
        }
    }
}

impl fmt::Display for Refusal {
    fn fmt(&self, f: &mut fmt::Formatter<'_>) -> fmt::Result {
        write!(f, "refusal {}: ", self.number())?;
        self.reason(f)
    }
}

impl Error for Refusal {}

/// A refusal, and where the refused atom starts. Its text has both, or the refusal alone where there is no place, so it
/// names no source.
///
/// ```
/// let refused = dimewagon::tally(&[0x40, 0x05, 0x07]).unwrap_err();
/// assert_eq!(refused.to_string(), "refusal 3 at 2: unknown special 7");
/// assert_eq!(refused.last.range(), 0..2);
/// ```
#[derive(Clone, Copy, Debug, PartialEq, Eq, Hash)]
#[non_exhaustive]
pub struct Refused {
    /// Why.
    pub refusal: Refusal,
    /// Where the refused atom starts; 0 of a signature. An input that is too long, [`Refusal::TooLong`], has no place:
    /// there this is 0 and says nothing.
    pub start: usize,
    /// The places of the last atom that was read before it, by the same tally, run or iterator, zeros if there was none.
    /// A check says none: zeros.
    pub last: Places,
}

impl fmt::Display for Refused {
    fn fmt(&self, f: &mut fmt::Formatter<'_>) -> fmt::Result {
        if self.refusal == Refusal::TooLong {
            return self.refusal.fmt(f);
        }
        write!(f, "refusal {} at {}: ", self.refusal.number(), self.start)?;
        self.refusal.reason(f)
    }
}

impl Error for Refused {}

/// A refusal, and where reading stopped. Its text is that of [`Refused`].
///
/// ```
/// use dimewagon::{read_atom, run, Places};
///
/// let source = [0x40, 0x05, 0x07];
/// let stopped = run(&source, 9).unwrap_err();
/// assert_eq!((stopped.start, stopped.atoms, stopped.last.range()), (2, 1, 0..2));
/// // One atom alone has none before it.
/// let stopped = read_atom(&source, 2, 9).unwrap_err();
/// assert_eq!((stopped.start, stopped.atoms, stopped.last), (2, 0, Places::default()));
/// ```
#[derive(Clone, Copy, Debug, PartialEq, Eq, Hash)]
#[non_exhaustive]
pub struct Stopped {
    /// Why.
    pub refusal: Refusal,
    /// The place after the refusal.
    pub place: usize,
    /// The budget left; 0 of a signature, which takes none.
    pub budget: u64,
    /// Where the refused atom starts; 0 of a signature.
    pub start: usize,
    /// How many atoms were read before it, by the same run or iterator.
    pub atoms: u64,
    /// The places of the last of these atoms, zeros if there was none.
    pub last: Places,
}

impl From<Stopped> for Refused {
    fn from(stopped: Stopped) -> Self {
        Self { refusal: stopped.refusal, start: stopped.start, last: stopped.last }
    }
}

impl fmt::Display for Stopped {
    fn fmt(&self, f: &mut fmt::Formatter<'_>) -> fmt::Result {
        Refused::from(*self).fmt(f)
    }
}

impl Error for Stopped {}
