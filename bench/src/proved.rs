//! The proved library's side: the exports of its loops, `crates/test_bench_loops`.

#[cfg(feature = "exports")]
use crate::WORDS;
use crate::{Found, Places, Tally};

extern "C" {
    fn loop_read(
        source: *const u8,
        source_len: usize,
        scratch: *mut u8,
        scratch_len: usize,
        budget: u64,
        way: u64,
        out: *mut u64,
        out_len: usize,
    ) -> u64;
    fn loop_run(source: *const u8, source_len: usize, budget: u64, out: *mut u64, out_len: usize) -> u64;
    fn loop_tally(source: *const u8, source_len: usize, out: *mut u64, out_len: usize) -> u64;
    fn loop_check(source: *const u8, source_len: usize, out: *mut u64, out_len: usize) -> u64;
    fn loop_write(writer: u64, values: *const u64, values_len: usize, out: *mut u8, out_len: usize) -> usize;
    fn loop_write_header(values: *const u64, values_len: usize, out: *mut u8, out_len: usize) -> usize;
    fn loop_write_bytes(
        text: *const u8,
        text_len: usize,
        values: *const u64,
        values_len: usize,
        out: *mut u8,
        out_len: usize,
    ) -> usize;
}

/// The ways of reading, by the number that `loop_read` takes.
#[derive(Clone, Copy)]
pub enum Way {
    Filled = 0,
    ExactLent = 1,
    ExactCopied = 2,
}

/// Reads every atom; the error is the refusal's number.
pub fn read(source: &[u8], budget: u64, scratch: &mut [u8], way: Way) -> Result<Found, u64> {
    let mut out = [0; 4];
    // SAFETY: each pointer comes with the length of its own live slice, and the mutable ones are distinct.
    let refusal = unsafe {
        loop_read(
            source.as_ptr(),
            source.len(),
            scratch.as_mut_ptr(),
            scratch.len(),
            budget,
            way as u64,
            out.as_mut_ptr(),
            out.len(),
        )
    };
    let [sum, atoms, place, budget] = out;
    if refusal == 0 { Ok(Found { sum, atoms, place, budget, last: Places::default() }) } else { Err(refusal) }
}

pub fn run(source: &[u8], budget: u64) -> Result<Found, u64> {
    let mut out = [0; 7];
    // SAFETY: as above.
    let refusal = unsafe { loop_run(source.as_ptr(), source.len(), budget, out.as_mut_ptr(), out.len()) };
    let [atoms, place, budget, _, first, body, after] = out;
    let last = Places { first, body, after };
    if refusal == 0 { Ok(Found { sum: 0, atoms, place, budget, last }) } else { Err(refusal) }
}

pub fn tally(source: &[u8]) -> Result<Tally, u64> {
    let mut out = [0; 7];
    // SAFETY: as above.
    let refusal = unsafe { loop_tally(source.as_ptr(), source.len(), out.as_mut_ptr(), out.len()) };
    let [atoms, body, charge, letters, first, body_start, after] = out;
    let last = Places { first, body: body_start, after };
    if refusal == 0 { Ok(Tally { atoms, body, charge, letters, last }) } else { Err(refusal) }
}

/// The check for shortest form; the error is where the refused atom starts.
pub fn check(source: &[u8]) -> Result<(), u64> {
    let mut out = [0; 4];
    // SAFETY: as above.
    let refusal = unsafe { loop_check(source.as_ptr(), source.len(), out.as_mut_ptr(), out.len()) };
    if refusal == 0 { Ok(()) } else { Err(out[0]) }
}

/// The writers; those before the signature by the number that `loop_write` takes.
#[derive(Clone, Copy)]
pub enum Writer {
    I8,
    I16,
    I24,
    I32,
    I48,
    I64,
    I128,
    U8,
    U16,
    U24,
    U32,
    U48,
    U64,
    U128,
    F32,
    F64,
    Special,
    Bool,
    AtomHeader,
    Header,
    Bytes,
}

/// Writes values of two words each, low and high, one after another; answers how many bytes they take. The writers of numbers
/// share a loop that chooses among them at each value; the signature's and the strings' have one of their own.
pub fn write(writer: Writer, text: &[u8], values: &[[u64; 2]], out: &mut [u8]) -> usize {
    let values = values.as_flattened();
    let (words, count) = (values.as_ptr(), values.len());
    let (room, size) = (out.as_mut_ptr(), out.len());
    // SAFETY: each pointer comes with the length of its own live slice.
    unsafe {
        match writer {
            Writer::Header => loop_write_header(words, count, room, size),
            Writer::Bytes => loop_write_bytes(text.as_ptr(), text.len(), words, count, room, size),
            number => loop_write(number as u64, words, count, room, size),
        }
    }
}

// The library's own exports, `crates/exports`: each answers 0 or a refusal's number, and twelve words.
#[cfg(feature = "exports")]
extern "C" {
    fn pot_read_atom_filled(
        source: *const u8,
        source_len: usize,
        place: usize,
        budget: u64,
        words: *mut u64,
        words_len: usize,
    ) -> u64;
    fn pot_read_atom_exact(
        source: *const u8,
        source_len: usize,
        place: usize,
        budget: u64,
        words: *mut u64,
        words_len: usize,
    ) -> u64;
    fn pot_read_atom_copied(
        source: *const u8,
        source_len: usize,
        place: usize,
        budget: u64,
        scratch: *mut u8,
        scratch_len: usize,
        words: *mut u64,
        words_len: usize,
    ) -> u64;
}

/// One atom through the exports, with zeros past the end.
#[cfg(feature = "exports")]
pub fn read_one_filled(source: &[u8], place: usize, budget: u64, words: &mut [u64; WORDS]) -> u64 {
    // SAFETY: each pointer comes with the length of its own live slice, and the mutable one is distinct.
    unsafe { pot_read_atom_filled(source.as_ptr(), source.len(), place, budget, words.as_mut_ptr(), words.len()) }
}

/// One atom exactly, a string lent.
#[cfg(feature = "exports")]
pub fn read_one_exact(source: &[u8], place: usize, budget: u64, words: &mut [u64; WORDS]) -> u64 {
    // SAFETY: as above.
    unsafe { pot_read_atom_exact(source.as_ptr(), source.len(), place, budget, words.as_mut_ptr(), words.len()) }
}

/// One atom exactly, a string copied.
#[cfg(feature = "exports")]
pub fn read_one_copied(
    source: &[u8],
    place: usize,
    budget: u64,
    scratch: &mut [u8],
    words: &mut [u64; WORDS],
) -> u64 {
    let (at, length) = (source.as_ptr(), source.len());
    let (room, size) = (scratch.as_mut_ptr(), scratch.len());
    // SAFETY: as above; the two mutable ones are distinct.
    unsafe { pot_read_atom_copied(at, length, place, budget, room, size, words.as_mut_ptr(), words.len()) }
}
