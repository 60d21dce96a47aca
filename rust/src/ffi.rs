//! The functions of `include/dimewagon.h`, as they are; what each expects and answers is said there.
#![allow(missing_docs)]

/// How many words a call writes; an array of fewer is refused by 9, and nothing is done.
pub const POT_WORDS: usize = 12;
/// The word of an atom's first place.
pub const POT_FIRST: usize = 8;
/// The word of the place where its body starts.
pub const POT_BODY: usize = 9;
/// The word of the place after it.
pub const POT_AFTER: usize = 10;

#[rustfmt::skip]
extern "C" {
    pub fn pot_read_header(source: *const u8, source_len: usize, place: usize, words: *mut u64, words_len: usize) -> u64;
    pub fn pot_read_header_filled(source: *const u8, source_len: usize, place: usize, words: *mut u64, words_len: usize) -> u64;
    pub fn pot_read_header_exact(source: *const u8, source_len: usize, place: usize, words: *mut u64, words_len: usize) -> u64;
    pub fn pot_read_atom(source: *const u8, source_len: usize, place: usize, budget: u64, words: *mut u64, words_len: usize) -> u64;
    pub fn pot_read_atom_filled(source: *const u8, source_len: usize, place: usize, budget: u64, words: *mut u64, words_len: usize) -> u64;
    pub fn pot_read_atom_exact(source: *const u8, source_len: usize, place: usize, budget: u64, words: *mut u64, words_len: usize) -> u64;
    pub fn pot_read_atom_copied(source: *const u8, source_len: usize, place: usize, budget: u64, scratch: *mut u8, scratch_len: usize, words: *mut u64, words_len: usize) -> u64;
    pub fn pot_skip_atom(source: *const u8, source_len: usize, place: usize, budget: u64, words: *mut u64, words_len: usize) -> u64;
    pub fn pot_run(source: *const u8, source_len: usize, budget: u64, words: *mut u64, words_len: usize) -> u64;
    pub fn pot_tally(source: *const u8, source_len: usize, words: *mut u64, words_len: usize) -> u64;
    pub fn pot_check(source: *const u8, source_len: usize, words: *mut u64, words_len: usize) -> u64;
    pub fn pot_write_header(out: *mut u8, out_len: usize, version: u8, words: *mut u64, words_len: usize) -> u64;
    pub fn pot_write_atom_header(out: *mut u8, out_len: usize, kind: u8, arg: u64, words: *mut u64, words_len: usize) -> u64;
    pub fn pot_write_special(out: *mut u8, out_len: usize, special: u64, words: *mut u64, words_len: usize) -> u64;
    pub fn pot_write_none(out: *mut u8, out_len: usize, words: *mut u64, words_len: usize) -> u64;
    pub fn pot_write_unit(out: *mut u8, out_len: usize, words: *mut u64, words_len: usize) -> u64;
    pub fn pot_write_named(out: *mut u8, out_len: usize, words: *mut u64, words_len: usize) -> u64;
    pub fn pot_write_bool(out: *mut u8, out_len: usize, value: u8, words: *mut u64, words_len: usize) -> u64;
    pub fn pot_write_i8(out: *mut u8, out_len: usize, value: i8, words: *mut u64, words_len: usize) -> u64;
    pub fn pot_write_i16(out: *mut u8, out_len: usize, value: i16, words: *mut u64, words_len: usize) -> u64;
    pub fn pot_write_i24(out: *mut u8, out_len: usize, value: i32, words: *mut u64, words_len: usize) -> u64;
    pub fn pot_write_i32(out: *mut u8, out_len: usize, value: i32, words: *mut u64, words_len: usize) -> u64;
    pub fn pot_write_i48(out: *mut u8, out_len: usize, value: i64, words: *mut u64, words_len: usize) -> u64;
    pub fn pot_write_i64(out: *mut u8, out_len: usize, value: i64, words: *mut u64, words_len: usize) -> u64;
    pub fn pot_write_i128(out: *mut u8, out_len: usize, low: u64, high: u64, words: *mut u64, words_len: usize) -> u64;
    pub fn pot_write_u8(out: *mut u8, out_len: usize, value: u8, words: *mut u64, words_len: usize) -> u64;
    pub fn pot_write_u16(out: *mut u8, out_len: usize, value: u16, words: *mut u64, words_len: usize) -> u64;
    pub fn pot_write_u24(out: *mut u8, out_len: usize, value: u32, words: *mut u64, words_len: usize) -> u64;
    pub fn pot_write_u32(out: *mut u8, out_len: usize, value: u32, words: *mut u64, words_len: usize) -> u64;
    pub fn pot_write_u48(out: *mut u8, out_len: usize, value: u64, words: *mut u64, words_len: usize) -> u64;
    pub fn pot_write_u64(out: *mut u8, out_len: usize, value: u64, words: *mut u64, words_len: usize) -> u64;
    pub fn pot_write_u128(out: *mut u8, out_len: usize, low: u64, high: u64, words: *mut u64, words_len: usize) -> u64;
    pub fn pot_write_integer(out: *mut u8, out_len: usize, variant: u64, low: u64, high: u64, words: *mut u64, words_len: usize) -> u64;
    pub fn pot_write_bytes(out: *mut u8, out_len: usize, value: *const u8, value_len: usize, words: *mut u64, words_len: usize) -> u64;
    pub fn pot_write_f32(out: *mut u8, out_len: usize, bits: u32, words: *mut u64, words_len: usize) -> u64;
    pub fn pot_write_f64(out: *mut u8, out_len: usize, bits: u64, words: *mut u64, words_len: usize) -> u64;
    pub fn pot_integer_cast(to: u64, variant: u64, low: u64, high: u64, words: *mut u64, words_len: usize) -> u64;
    pub fn pot_integer_as_f32(variant: u64, low: u64, high: u64, words: *mut u64, words_len: usize) -> u64;
    pub fn pot_integer_as_f64(variant: u64, low: u64, high: u64, words: *mut u64, words_len: usize) -> u64;
    pub fn pot_f32_as_f64(bits: u32, words: *mut u64, words_len: usize) -> u64;
    pub fn pot_f64_as_f32(bits: u64, words: *mut u64, words_len: usize) -> u64;
    pub fn pot_f32_as_integer(bits: u32, words: *mut u64, words_len: usize) -> u64;
    pub fn pot_f64_as_integer(bits: u64, words: *mut u64, words_len: usize) -> u64;
}
