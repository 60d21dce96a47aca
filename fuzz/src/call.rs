//! A call of an export. It takes what the export takes, also what the original's types shut out: kinds, specials and
//! variants by any number, and values that their variant does not hold.

use oracle::wire::{self, Way, Writer};

/// One export, or a walk over a file by many, with its arguments.
#[derive(Debug, Clone, Copy)]
pub enum Call<'a> {
    ReadHeader(Reading<'a>),
    ReadAtom(u64, Reading<'a>),
    SkipAtom(u64, Reading<'a>),
    /// One atom after another by that entry, past refused ones too.
    Walk(u64, Entry, &'a [u8]),
    Run(u64, &'a [u8]),
    Tally(&'a [u8]),
    Check(&'a [u8]),
    WriteHeader(u8),
    WriteAtomHeader(u8, u64),
    WriteSpecial(u64),
    WriteNone,
    WriteUnit,
    WriteNamed,
    WriteBool(u8),
    /// A value of the type that the writer takes, sign extended.
    WriteInteger(Writer, u128),
    WriteVariant(Parts),
    WriteBytes(&'a [u8]),
    WriteF32(u32),
    WriteF64(u64),
    Cast(u64, Parts),
    AsF32(Parts),
    AsF64(Parts),
    F32AsF64(u32),
    F64AsF32(u64),
    F32AsInteger(u32),
    F64AsInteger(u64),
}

/// The exports that read a signature or an atom: the one that names no way, and those that name theirs.
#[derive(Debug, Clone, Copy, PartialEq, Eq)]
pub enum Entry {
    Unnamed,
    Filled,
    Exact,
    Copied,
}

impl Entry {
    pub const ALL: [Self; 4] = [Self::Unnamed, Self::Filled, Self::Exact, Self::Copied];

    /// The way by which the original is asked. The entry that names none has `IoReader`'s values, its strings lent.
    pub const fn way(self) -> Way {
        match self {
            Self::Unnamed => Way::Unnamed,
            Self::Exact => Way::ExactLent,
            Self::Filled => Way::Filled,
            Self::Copied => Way::ExactCopied,
        }
    }
}

/// What an export that reads is given: a place and a source, and which export it is.
#[derive(Debug, Clone, Copy)]
pub struct Reading<'a> {
    pub entry: Entry,
    pub place: u64,
    pub source: &'a [u8],
}

impl<'a> Reading<'a> {
    /// The same for the original.
    pub const fn for_original(self) -> wire::Reading<'a> {
        wire::Reading { way: self.entry.way(), place: self.place, source: self.source }
    }
}

/// An integer as the exports take it: the number of its variant, and its value's words.
#[derive(Debug, Clone, Copy)]
pub struct Parts {
    pub variant: u64,
    pub bits: u128,
}

/// The room that a call is lent.
#[derive(Debug, Clone, Copy)]
pub struct Room {
    /// How many words.
    pub words: usize,
    /// How many bytes, of an output or a scratch.
    pub bytes: usize,
}

impl Call<'_> {
    /// The source that the call reads, or the bytes that it writes.
    pub const fn source(&self) -> &[u8] {
        match self {
            Self::ReadHeader(reading) | Self::ReadAtom(_, reading) | Self::SkipAtom(_, reading) => reading.source,
            Self::Walk(_, _, source) | Self::Run(_, source) => source,
            Self::Tally(source) | Self::Check(source) | Self::WriteBytes(source) => source,
            _ => &[],
        }
    }
}
