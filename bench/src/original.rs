//! The original's side: plain loops over its `read_atom` and its writers.

use std::io;
use std::marker::PhantomData;

use crate::error::Error;
use crate::format::{self, read_atom, Atom, InnerFloat, InnerInteger, Kind, Nucleus, Special};
use crate::proved::Writer;
use crate::reader::{IoReader, Reader, SliceReader};
#[cfg(feature = "exports")]
use crate::WORDS;
use crate::{Found, Places, Tally};

/// A word into the checksum.
pub fn fold(sum: u64, word: u64) -> u64 {
    (sum << 1) ^ (sum >> 63) ^ word
}

fn wide_word(value: u128) -> u64 {
    (value as u64) ^ ((value >> 64) as u64)
}

fn atom_word(atom: &Atom<'_>, scratch: &[u8]) -> u64 {
    let word = match &atom.nucleus {
        None => 1,
        Some(Nucleus::Unit) => 2,
        Some(Nucleus::Boolean(value)) => 3 + u64::from(*value),
        Some(Nucleus::Named) => 5,
        Some(Nucleus::DynamicMap) => 6,
        Some(Nucleus::DynamicEnd) => 7,
        Some(Nucleus::Integer(integer)) => match integer.0 {
            InnerInteger::I8(value) => u64::from(value as u8),
            InnerInteger::I16(value) => u64::from(value as u16),
            InnerInteger::I32(value) => u64::from(value as u32),
            InnerInteger::I64(value) => value as u64,
            InnerInteger::I128(value) => wide_word(value as u128),
            InnerInteger::U8(value) => u64::from(value),
            InnerInteger::U16(value) => u64::from(value),
            InnerInteger::U32(value) => u64::from(value),
            InnerInteger::U64(value) => value,
            InnerInteger::U128(value) => wide_word(value),
        },
        Some(Nucleus::Float(float)) => match float.0 {
            InnerFloat::F64(value) => value.to_bits(),
            InnerFloat::F32(value) => u64::from(value.to_bits()),
        },
        Some(Nucleus::Bytes(bytes)) => {
            let string = bytes.as_slice(scratch);
            string.len() as u64 ^ string.first().map_or(0, |&first| u64::from(first) << 32)
        }
    };
    word ^ atom.kind as u64 ^ atom.arg
}

/// A reader over a slice that can tell how many bytes it has left.
pub trait Source<'a>: Reader<'a> {
    #[cfg(feature = "exports")]
    fn over(source: &'a [u8]) -> Self;
    fn left(&self) -> usize;
}

impl<'a> Source<'a> for SliceReader<'a> {
    #[cfg(feature = "exports")]
    fn over(source: &'a [u8]) -> Self {
        Self::from(source)
    }

    fn left(&self) -> usize {
        self.len()
    }
}

impl<'a> Source<'a> for IoReader<&'a [u8]> {
    #[cfg(feature = "exports")]
    fn over(source: &'a [u8]) -> Self {
        Self::new(source)
    }

    fn left(&self) -> usize {
        self.reader.len()
    }
}

/// The places of an atom that was read. The first and the last are where its reader stood before it and after it. The
/// original does not say where the header ends: the source's bytes do.
fn places(source: &[u8], first: usize, after: usize) -> Places {
    Places { first: first as u64, body: past_header(source, first) as u64, after: after as u64 }
}

/// The place past the header that starts there, as far as the source goes: its first byte says by 0x10 that another
/// follows, and each of those but the ninth by 0x80.
fn past_header(source: &[u8], first: usize) -> usize {
    match source.get(first) {
        None => first,
        Some(byte) if byte & 0x10 == 0 => first + 1,
        Some(_) => {
            let later = &source[first + 1..];
            let more = later.iter().take(8).take_while(|byte| *byte & 0x80 != 0).count();
            first + 1 + later.len().min(more + 1)
        }
    }
}

fn read<'a>(
    source: &'a [u8],
    mut reader: impl Source<'a>,
    budget: u64,
    scratch: &mut Vec<u8>,
) -> Result<Found, Error> {
    let mut budget = budget as usize;
    let (mut sum, mut atoms, mut place) = (0, 0, 0);
    while place < source.len() {
        let atom = read_atom(&mut reader, &mut budget, scratch)?;
        let after = source.len() - reader.left();
        sum = fold(sum, atom_word(&atom, scratch) ^ places(source, place, after).word());
        atoms += 1;
        place = after;
    }
    Ok(Found { sum, atoms, place: place as u64, budget: budget as u64, last: Places::default() })
}

#[inline(never)]
pub fn read_filled(source: &[u8], budget: u64, scratch: &mut Vec<u8>) -> Result<Found, Error> {
    read(source, SliceReader::from(source), budget, scratch)
}

#[inline(never)]
pub fn read_exact(source: &[u8], budget: u64, scratch: &mut Vec<u8>) -> Result<Found, Error> {
    read(source, IoReader::new(source), budget, scratch)
}

/// The places of the last atom, before which its reader had so much left; zeros if there was none.
fn last_places<'a>(source: &[u8], before: usize, reader: &impl Source<'a>) -> Places {
    if before == reader.left() {
        return Places::default();
    }
    places(source, source.len() - before, source.len() - reader.left())
}

fn run_over<'a>(
    source: &'a [u8],
    mut reader: impl Source<'a>,
    budget: u64,
    scratch: &mut Vec<u8>,
) -> Result<Found, Error> {
    let mut budget = budget as usize;
    let (mut atoms, mut before) = (0, reader.left());
    while reader.left() > 0 {
        before = reader.left();
        read_atom(&mut reader, &mut budget, scratch)?;
        atoms += 1;
    }
    let place = (source.len() - reader.left()) as u64;
    Ok(Found { sum: 0, atoms, place, budget: budget as u64, last: last_places(source, before, &reader) })
}

#[inline(never)]
pub fn run(source: &[u8], budget: u64, scratch: &mut Vec<u8>) -> Result<Found, Error> {
    run_over(source, IoReader::new(source), budget, scratch)
}

/// The run over the reader that fills: faster, and not what document 01 asks of a run.
#[inline(never)]
pub fn run_filled(source: &[u8], budget: u64, scratch: &mut Vec<u8>) -> Result<Found, Error> {
    run_over(source, SliceReader::from(source), budget, scratch)
}

fn tally_over<'a>(source: &'a [u8], mut reader: impl Source<'a>, scratch: &mut Vec<u8>) -> Result<Tally, Error> {
    let mut tally = Tally::default();
    let (mut budget, mut before) = (usize::MAX, reader.left());
    while reader.left() > 0 {
        before = reader.left();
        let uncharged = budget;
        let atom = read_atom(&mut reader, &mut budget, scratch)?;
        tally.atoms += 1;
        tally.charge += (uncharged - budget) as u64;
        match &atom.nucleus {
            Some(Nucleus::Bytes(bytes)) => {
                tally.body += atom.arg;
                tally.letters += count_letters(bytes.as_slice(scratch));
            }
            Some(Nucleus::Integer(_) | Nucleus::Float(_)) => tally.body += atom.arg + 1,
            _ => {}
        }
    }
    tally.last = last_places(source, before, &reader);
    Ok(tally)
}

#[inline(never)]
pub fn tally(source: &[u8], scratch: &mut Vec<u8>) -> Result<Tally, Error> {
    tally_over(source, IoReader::new(source), scratch)
}

#[inline(never)]
pub fn tally_filled(source: &[u8], scratch: &mut Vec<u8>) -> Result<Tally, Error> {
    tally_over(source, SliceReader::from(source), scratch)
}

/// A letter is a string byte outside 0x80 to 0xBF; the pair CC with 80 to BF, or CD with 80 to AF, counts as none. Of
/// ten plain loops this was the fastest on strings of 1 KB of each text: it takes back a letter that began a mark.
fn count_letters(bytes: &[u8]) -> u64 {
    let (mut letters, mut before) = (0, 0);
    for &byte in bytes {
        match byte {
            0x80..=0xbf if before == 0xcc || before == 0xcd && byte <= 0xaf => letters -= 1,
            0x80..=0xbf => {}
            _ => letters += 1,
        }
        before = byte;
    }
    letters
}

/// Compares what is written with a part of the source, and stores nothing. It is one for each reader, so that each check
/// has writers of its own, which then are inlined into it.
struct Compared<'a, R> {
    rest: &'a [u8],
    of: PhantomData<R>,
}

impl<R> io::Write for Compared<'_, R> {
    #[inline(always)]
    fn write(&mut self, bytes: &[u8]) -> io::Result<usize> {
        self.write_all(bytes)?;
        Ok(bytes.len())
    }

    #[inline(always)]
    fn write_all(&mut self, bytes: &[u8]) -> io::Result<()> {
        if self.rest.len() < bytes.len() || self.rest[..bytes.len()] != *bytes {
            return Err(io::ErrorKind::InvalidData.into());
        }
        self.rest = &self.rest[bytes.len()..];
        Ok(())
    }

    fn flush(&mut self) -> io::Result<()> {
        Ok(())
    }
}

/// Writes an atom that was read of these bytes once more, of a string the header alone: the rest is as it was read. A NaN
/// of two bytes, which the original reads and has no writer for, is its header in one byte, and then its own two.
#[inline(always)]
fn write_again(atom: &Atom<'_>, bytes: &[u8], mut out: impl io::Write) -> io::Result<usize> {
    match &atom.nucleus {
        Some(Nucleus::Integer(integer)) => integer.write_to(out),
        Some(Nucleus::Float(float)) => match float.0 {
            InnerFloat::F32(value) if value.is_nan() && atom.arg == 1 => {
                out.write_all(&[0x61])?;
                out.write_all(&bytes[bytes.len() - 2..])?;
                Ok(3)
            }
            _ => float.write_to(out),
        },
        _ => format::write_atom_header(out, atom.kind, atom.arg),
    }
}

fn check_over<'a, R: Source<'a>>(source: &'a [u8], mut reader: R, scratch: &mut Vec<u8>) -> Result<(), u64> {
    let mut first = 0;
    while first < source.len() {
        let mut budget = usize::MAX;
        let Ok(atom) = read_atom(&mut reader, &mut budget, scratch) else { return Err(first as u64) };
        let after = source.len() - reader.left();
        let written = if let Some(Nucleus::Bytes(_)) = atom.nucleus { after - atom.arg as usize } else { after };
        let mut out = Compared { rest: &source[first..written], of: PhantomData::<R> };
        if write_again(&atom, &source[first..after], &mut out).is_err() || !out.rest.is_empty() {
            return Err(first as u64);
        }
        first = after;
    }
    Ok(())
}

/// The check for shortest form: each atom is read and written once more, and what is written must be what was read; the
/// error is where the first bad atom starts. Of nine shapes this was the fastest (a Xeon): others wrote into a reused `Vec`
/// or an array, each atom whole or a string's header alone, or the whole file, and compared after that. The others were
/// not tried with writers of their own.
#[inline(never)]
pub fn check(source: &[u8], scratch: &mut Vec<u8>) -> Result<(), u64> {
    check_over(source, IoReader::new(source), scratch)
}

/// The check over the reader that fills, which refuses a number that is cut as one in more bytes than it has.
#[inline(never)]
pub fn check_filled(source: &[u8], scratch: &mut Vec<u8>) -> Result<(), u64> {
    check_over(source, SliceReader::from(source), scratch)
}

/// One atom behind a boundary as the library's exports have it: C's calling convention, slices as an address and a number,
/// 0 or a refusal's number as the answer (4 stands for all of the original's), and twelve words. Its reader copies strings
/// into a `Vec`, which it is handed as one.
#[cfg(feature = "exports")]
pub type ReadOne = unsafe extern "C" fn(*const u8, usize, usize, u64, &mut Vec<u8>, *mut u64, usize) -> u64;

/// Reads an atom by a reader.
///
/// # Safety
/// Each address comes with the number of what is there.
#[cfg(feature = "exports")]
pub unsafe extern "C" fn read_one<'a, R: Source<'a>>(
    source: *const u8,
    source_len: usize,
    place: usize,
    budget: u64,
    scratch: &mut Vec<u8>,
    words: *mut u64,
    words_len: usize,
) -> u64 {
    let source = std::slice::from_raw_parts(source, source_len);
    let words = std::slice::from_raw_parts_mut(words, words_len);
    say(source, R::over(&source[place.min(source_len)..]), budget, scratch, words)
}

/// The answer's number and its words; the stored bits of a float, which the original does not keep, are left 0.
#[cfg(feature = "exports")]
fn say<'a>(
    source: &'a [u8],
    mut reader: impl Source<'a>,
    budget: u64,
    scratch: &mut Vec<u8>,
    words: &mut [u64],
) -> u64 {
    let Some(words) = words.first_chunk_mut::<WORDS>() else {
        return 9;
    };
    let mut budget = budget as usize;
    let place = source.len() - reader.left();
    let Ok(atom) = read_atom(&mut reader, &mut budget, scratch) else {
        return 4;
    };
    let next = source.len() - reader.left();
    let [case, one, two, three] = nucleus_words(&atom, next, scratch);
    let Places { first, body, after } = places(source, place, next);
    *words = [after, budget as u64, atom.kind as u64, atom.arg, case, one, two, three, first, body, after, 0];
    0
}

/// The case of what an atom holds, and three words, as the exports lay them.
#[cfg(feature = "exports")]
fn nucleus_words(atom: &Atom<'_>, place: usize, scratch: &[u8]) -> [u64; 4] {
    let integer = |variant: u64, value: i128| [2, variant, value as u64, (value >> 64) as u64];
    match &atom.nucleus {
        None => [0; 4],
        Some(Nucleus::Boolean(value)) => [1, u64::from(*value), 0, 0],
        Some(Nucleus::Integer(value)) => match value.0 {
            InnerInteger::I8(value) => integer(0, value.into()),
            InnerInteger::I16(value) => integer(1, value.into()),
            InnerInteger::I32(value) => integer(2, value.into()),
            InnerInteger::I64(value) => integer(3, value.into()),
            InnerInteger::I128(value) => integer(4, value),
            InnerInteger::U8(value) => integer(5, value.into()),
            InnerInteger::U16(value) => integer(6, value.into()),
            InnerInteger::U32(value) => integer(7, value.into()),
            InnerInteger::U64(value) => integer(8, value.into()),
            InnerInteger::U128(value) => integer(9, value as i128),
        },
        Some(Nucleus::Float(float)) => match float.0 {
            InnerFloat::F64(value) => [3, 8, value.to_bits(), 0],
            InnerFloat::F32(value) => [3, 4, u64::from(value.to_bits()), 0],
        },
        Some(Nucleus::Bytes(bytes)) => {
            let length = bytes.as_slice(scratch).len();
            [4, (place - length) as u64, length as u64, 1]
        }
        Some(Nucleus::Unit) => [5, 0, 0, 0],
        Some(Nucleus::Named) => [6, 0, 0, 0],
        Some(Nucleus::DynamicMap) => [7, 0, 0, 0],
        Some(Nucleus::DynamicEnd) => [8, 0, 0, 0],
    }
}

/// Writes values of two words each, low and high, one after another, in a loop of each writer's own.
#[inline(never)]
pub fn write(writer: Writer, text: &[u8], values: &[[u64; 2]], out: &mut [u8]) -> usize {
    match writer {
        Writer::I8 => each(values, out, |out, low, _| format::write_i8(out, low as i8)),
        Writer::I16 => each(values, out, |out, low, _| format::write_i16(out, low as i16)),
        Writer::I24 => each(values, out, |out, low, _| format::write_i24(out, ((low as i32) << 8) >> 8)),
        Writer::I32 => each(values, out, |out, low, _| format::write_i32(out, low as i32)),
        Writer::I48 => each(values, out, |out, low, _| format::write_i48(out, ((low as i64) << 16) >> 16)),
        Writer::I64 => each(values, out, |out, low, _| format::write_i64(out, low as i64)),
        Writer::I128 => each(values, out, |out, low, high| format::write_i128(out, wide(low, high) as i128)),
        Writer::U8 => each(values, out, |out, low, _| format::write_u8(out, low as u8)),
        Writer::U16 => each(values, out, |out, low, _| format::write_u16(out, low as u16)),
        Writer::U24 => each(values, out, |out, low, _| format::write_u24(out, low as u32 & 0xFF_FFFF)),
        Writer::U32 => each(values, out, |out, low, _| format::write_u32(out, low as u32)),
        Writer::U48 => each(values, out, |out, low, _| format::write_u48(out, low & 0xFFFF_FFFF_FFFF)),
        Writer::U64 => each(values, out, |out, low, _| format::write_u64(out, low)),
        Writer::U128 => each(values, out, |out, low, high| format::write_u128(out, wide(low, high))),
        Writer::F32 => each(values, out, |out, low, _| format::write_f32(out, f32::from_bits(low as u32))),
        Writer::F64 => each(values, out, |out, low, _| format::write_f64(out, f64::from_bits(low))),
        Writer::Special => each(values, out, |out, low, _| {
            format::write_special(out, Special::try_from(low).unwrap_or(Special::None))
        }),
        Writer::Bool => each(values, out, |out, low, _| format::write_bool(out, low == 1)),
        Writer::AtomHeader => each(values, out, |out, low, _| format::write_atom_header(out, Kind::Sequence, low)),
        Writer::Header => each(values, out, |out, low, _| format::write_header(out, low as u8)),
        Writer::Bytes => each(values, out, |out, low, _| format::write_bytes(out, &text[..low as usize])),
    }
}

fn wide(low: u64, high: u64) -> u128 {
    (u128::from(high) << 64) | u128::from(low)
}

#[inline(always)]
fn each(
    values: &[[u64; 2]],
    out: &mut [u8],
    write: impl Fn(&mut &mut [u8], u64, u64) -> io::Result<usize>,
) -> usize {
    let mut rest = out;
    let mut count = 0;
    for &[low, high] in values {
        count += write(&mut rest, low, high).expect("the buffer has room");
    }
    count
}
