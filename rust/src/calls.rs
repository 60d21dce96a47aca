//! The functions of the library on slices and numbers. All unsafe code of this crate is here.
#![allow(unsafe_code)]

use crate::ffi::{self, POT_WORDS};

/// The words that a call writes.
pub(crate) type Words = [u64; POT_WORDS];

/// What a call answers: its number, and its words.
pub(crate) type Answer = (u64, Words);

/// The functions that read a source.
macro_rules! readers {
    ($($name:ident($($number:ident: $type:ident),*))*) => {
        $(
            pub(crate) fn $name(source: &[u8], $($number: $type),*) -> Answer {
                let mut words = [0; POT_WORDS];
                // SAFETY: each pointer and length are those of one slice, which lives through the call; the words are ours.
                let number = unsafe {
                    ffi::$name(source.as_ptr(), source.len(), $($number,)* words.as_mut_ptr(), words.len())
                };
                (number, words)
            }
        )*
    };
}

readers! {
    pot_read_header(place: usize)
    pot_read_header_filled(place: usize)
    pot_read_header_exact(place: usize)
    pot_read_atom(place: usize, budget: u64)
    pot_read_atom_filled(place: usize, budget: u64)
    pot_read_atom_exact(place: usize, budget: u64)
    pot_skip_atom(place: usize, budget: u64)
    pot_run(budget: u64)
    pot_tally()
    pot_check()
}

pub(crate) fn pot_read_atom_copied(source: &[u8], place: usize, budget: u64, scratch: &mut [u8]) -> Answer {
    let mut words = [0; POT_WORDS];
    let (start, room) = (scratch.as_mut_ptr(), scratch.len());
    // SAFETY: as above; the scratch is borrowed alone, so it overlaps neither the source nor the words.
    let number = unsafe {
        let (source, len) = (source.as_ptr(), source.len());
        ffi::pot_read_atom_copied(source, len, place, budget, start, room, words.as_mut_ptr(), words.len())
    };
    (number, words)
}

/// The functions that write numbers to a buffer.
macro_rules! writers {
    ($($name:ident($($number:ident: $type:ident),*))*) => {
        $(
            pub(crate) fn $name(out: &mut [u8], $($number: $type),*) -> Answer {
                let mut words = [0; POT_WORDS];
                // SAFETY: each pointer and length are those of one slice, which is borrowed alone through the call.
                let number = unsafe {
                    ffi::$name(out.as_mut_ptr(), out.len(), $($number,)* words.as_mut_ptr(), words.len())
                };
                (number, words)
            }
        )*
    };
}

writers! {
    pot_write_header(version: u8)
    pot_write_atom_header(kind: u8, arg: u64)
    pot_write_special(special: u64)
    pot_write_none()
    pot_write_unit()
    pot_write_named()
    pot_write_bool(value: u8)
    pot_write_i8(value: i8)
    pot_write_i16(value: i16)
    pot_write_i24(value: i32)
    pot_write_i32(value: i32)
    pot_write_i48(value: i64)
    pot_write_i64(value: i64)
    pot_write_i128(low: u64, high: u64)
    pot_write_u8(value: u8)
    pot_write_u16(value: u16)
    pot_write_u24(value: u32)
    pot_write_u32(value: u32)
    pot_write_u48(value: u64)
    pot_write_u64(value: u64)
    pot_write_u128(low: u64, high: u64)
    pot_write_integer(variant: u64, low: u64, high: u64)
    pot_write_f32(bits: u32)
    pot_write_f64(bits: u64)
}

pub(crate) fn pot_write_bytes(out: &mut [u8], value: &[u8]) -> Answer {
    let mut words = [0; POT_WORDS];
    let (start, room) = (out.as_mut_ptr(), out.len());
    // SAFETY: as above; the buffer is borrowed alone, so it overlaps neither the value nor the words.
    let number =
        unsafe { ffi::pot_write_bytes(start, room, value.as_ptr(), value.len(), words.as_mut_ptr(), words.len()) };
    (number, words)
}

/// The functions on numbers alone.
macro_rules! casts {
    ($($name:ident($($number:ident: $type:ident),*))*) => {
        $(
            pub(crate) fn $name($($number: $type),*) -> Answer {
                let mut words = [0; POT_WORDS];
                // SAFETY: the pointer and the length are those of the words, which are ours.
                let number = unsafe { ffi::$name($($number,)* words.as_mut_ptr(), words.len()) };
                (number, words)
            }
        )*
    };
}

casts! {
    pot_integer_cast(to: u64, variant: u64, low: u64, high: u64)
    pot_integer_as_f32(variant: u64, low: u64, high: u64)
    pot_integer_as_f64(variant: u64, low: u64, high: u64)
    pot_f32_as_f64(bits: u32)
    pot_f64_as_f32(bits: u64)
    pot_f32_as_integer(bits: u32)
    pot_f64_as_integer(bits: u64)
}
