//! Calls of the proved exports, by pointers and lengths.

use oracle::wire::Writer;

use crate::call::{Call, Entry, Parts};
use crate::ffi::*;

/// A lent buffer as the exports take it.
#[derive(Clone, Copy)]
pub struct Slice<T> {
    pub start: *mut T,
    pub length: usize,
}

/// What a call is lent: its source, an output or a scratch, and the words.
#[derive(Clone, Copy)]
pub struct Slices {
    pub source: Slice<u8>,
    pub bytes: Slice<u8>,
    pub words: Slice<u64>,
}

/// Makes the call and hands back the number that it answers.
///
/// # Safety
/// The slices are memory of those lengths and do not overlap.
pub unsafe fn ask(call: &Call<'_>, lent: &Slices) -> u64 {
    match call {
        Call::ReadHeader(..)
        | Call::ReadAtom(..)
        | Call::SkipAtom(..)
        | Call::Walk(..)
        | Call::Run(..)
        | Call::Tally(..)
        | Call::Check(..) => read(call, lent),
        Call::WriteInteger(writer, bits) => write_integer(*writer, *bits, lent),
        Call::Cast(..)
        | Call::AsF32(..)
        | Call::AsF64(..)
        | Call::F32AsF64(..)
        | Call::F64AsF32(..)
        | Call::F32AsInteger(..)
        | Call::F64AsInteger(..) => cast(call, lent),
        _ => write(call, lent),
    }
}

unsafe fn read(call: &Call<'_>, lent: &Slices) -> u64 {
    let (Slice { start: source, length: size }, Slice { start: words, length: count }) = (lent.source, lent.words);
    let (scratch, room) = (lent.bytes.start, lent.bytes.length);
    match *call {
        Call::ReadHeader(reading) => {
            let place = reading.place as usize;
            match reading.entry {
                Entry::Unnamed => pot_read_header(source, size, place, words, count),
                Entry::Filled => pot_read_header_filled(source, size, place, words, count),
                // A signature has no string to copy.
                Entry::Exact | Entry::Copied => pot_read_header_exact(source, size, place, words, count),
            }
        }
        Call::ReadAtom(budget, reading) => {
            let place = reading.place as usize;
            match reading.entry {
                Entry::Unnamed => pot_read_atom(source, size, place, budget, words, count),
                Entry::Filled => pot_read_atom_filled(source, size, place, budget, words, count),
                Entry::Exact => pot_read_atom_exact(source, size, place, budget, words, count),
                Entry::Copied => pot_read_atom_copied(source, size, place, budget, scratch, room, words, count),
            }
        }
        Call::SkipAtom(budget, reading) => pot_skip_atom(source, size, reading.place as usize, budget, words, count),
        Call::Run(budget, _) => pot_run(source, size, budget, words, count),
        Call::Tally(_) => pot_tally(source, size, words, count),
        Call::Check(_) => pot_check(source, size, words, count),
        _ => unreachable!("a walk is many reads, and the others are no reads"),
    }
}

unsafe fn write(call: &Call<'_>, lent: &Slices) -> u64 {
    let (Slice { start: out, length: room }, Slice { start: words, length: count }) = (lent.bytes, lent.words);
    match *call {
        Call::WriteHeader(version) => pot_write_header(out, room, version, words, count),
        Call::WriteAtomHeader(kind, arg) => pot_write_atom_header(out, room, kind, arg, words, count),
        Call::WriteSpecial(special) => pot_write_special(out, room, special, words, count),
        Call::WriteNone => pot_write_none(out, room, words, count),
        Call::WriteUnit => pot_write_unit(out, room, words, count),
        Call::WriteNamed => pot_write_named(out, room, words, count),
        Call::WriteBool(value) => pot_write_bool(out, room, value, words, count),
        Call::WriteVariant(parts) => {
            let (low, high) = halves(parts.bits);
            pot_write_integer(out, room, parts.variant, low, high, words, count)
        }
        Call::WriteBytes(_) => pot_write_bytes(out, room, lent.source.start, lent.source.length, words, count),
        Call::WriteF32(bits) => pot_write_f32(out, room, bits, words, count),
        Call::WriteF64(bits) => pot_write_f64(out, room, bits, words, count),
        _ => unreachable!("the others are no writers"),
    }
}

unsafe fn write_integer(writer: Writer, bits: u128, lent: &Slices) -> u64 {
    let (Slice { start: out, length: room }, Slice { start: words, length: count }) = (lent.bytes, lent.words);
    let (low, high) = halves(bits);
    match writer {
        Writer::I8 => pot_write_i8(out, room, low as i8, words, count),
        Writer::I16 => pot_write_i16(out, room, low as i16, words, count),
        Writer::I24 => pot_write_i24(out, room, low as i32, words, count),
        Writer::I32 => pot_write_i32(out, room, low as i32, words, count),
        Writer::I48 => pot_write_i48(out, room, low as i64, words, count),
        Writer::I64 => pot_write_i64(out, room, low as i64, words, count),
        Writer::I128 => pot_write_i128(out, room, low, high, words, count),
        Writer::U8 => pot_write_u8(out, room, low as u8, words, count),
        Writer::U16 => pot_write_u16(out, room, low as u16, words, count),
        Writer::U24 => pot_write_u24(out, room, low as u32, words, count),
        Writer::U32 => pot_write_u32(out, room, low as u32, words, count),
        Writer::U48 => pot_write_u48(out, room, low, words, count),
        Writer::U64 => pot_write_u64(out, room, low, words, count),
        Writer::U128 => pot_write_u128(out, room, low, high, words, count),
    }
}

unsafe fn cast(call: &Call<'_>, lent: &Slices) -> u64 {
    let Slice { start: words, length: count } = lent.words;
    match *call {
        Call::Cast(to, Parts { variant, bits }) => {
            let (low, high) = halves(bits);
            pot_integer_cast(to, variant, low, high, words, count)
        }
        Call::AsF32(Parts { variant, bits }) => {
            let (low, high) = halves(bits);
            pot_integer_as_f32(variant, low, high, words, count)
        }
        Call::AsF64(Parts { variant, bits }) => {
            let (low, high) = halves(bits);
            pot_integer_as_f64(variant, low, high, words, count)
        }
        Call::F32AsF64(bits) => pot_f32_as_f64(bits, words, count),
        Call::F64AsF32(bits) => pot_f64_as_f32(bits, words, count),
        Call::F32AsInteger(bits) => pot_f32_as_integer(bits, words, count),
        Call::F64AsInteger(bits) => pot_f64_as_integer(bits, words, count),
        _ => unreachable!("the others are no casts"),
    }
}

/// The low and the high word.
pub const fn halves(bits: u128) -> (u64, u64) {
    (bits as u64, (bits >> 64) as u64)
}
