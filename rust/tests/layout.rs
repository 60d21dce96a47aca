//! The layout of the words, from this side: what the library writes for examples of document 01. The same answers stand in
//! crates/promises/proofs/Laid.antt, where they are proved of the definitions. Every call here gives the pointer and the
//! length of one live slice for each slice.
use dimewagon::ffi::*;

const OLD: u64 = 77;
const NONE: [u64; 3] = [0; 3];

/// The words of a call, and one behind them, which it leaves.
type Words = [u64; POT_WORDS + 1];

fn asked(ask: impl FnOnce(*mut u64, usize) -> u64) -> (u64, Words) {
    let mut words = [OLD; POT_WORDS + 1];
    let number = ask(words.as_mut_ptr(), words.len());
    (number, words)
}

/// The words of an answer: its first ones, the places of an atom, and zeros elsewhere.
fn said(first: &[u64], places: [u64; 3]) -> Words {
    let mut words = [0; POT_WORDS + 1];
    words[..first.len()].copy_from_slice(first);
    (words[POT_FIRST], words[POT_BODY], words[POT_AFTER]) = (places[0], places[1], places[2]);
    words[POT_WORDS] = OLD;
    words
}

/// One atom by the entry that names no way, which answers as the exact one does.
fn atom(source: &[u8], budget: u64) -> (u64, Words) {
    let answer = asked(|w, n| unsafe { pot_read_atom(source.as_ptr(), source.len(), 0, budget, w, n) });
    let exact = asked(|w, n| unsafe { pot_read_atom_exact(source.as_ptr(), source.len(), 0, budget, w, n) });
    assert_eq!(answer, exact);
    answer
}

fn filled(source: &[u8], budget: u64) -> (u64, Words) {
    asked(|w, n| unsafe { pot_read_atom_filled(source.as_ptr(), source.len(), 0, budget, w, n) })
}

#[test]
fn integers() {
    let negative = (-8388608i64) as u64;
    assert_eq!(atom(&[0x22, 0, 0, 0x80], 4), (0, said(&[4, 0, 1, 2, 2, 2, negative, u64::MAX], [0, 1, 4])));
    assert_eq!(atom(&[0x41, 0x2C, 0x01], 9), (0, said(&[3, 7, 2, 1, 2, 6, 300, 0], [0, 1, 3])));
}

#[test]
fn floats() {
    let largest = 65504f32.to_bits().into();
    assert_eq!(atom(&[0x61, 0xFF, 0x7B], 9), (0, said(&[3, 7, 3, 1, 3, 4, largest, 0x7BFF], [0, 1, 3])));
    assert_eq!(atom(&[0x61, 0x01, 0x7C], 9), (0, said(&[3, 7, 3, 1, 3, 4, 0x7FC0_2000, 0x7C01], [0, 1, 3])));
}

#[test]
fn strings_and_specials() {
    assert_eq!(atom(&[0xE2, 0x61, 0x62], 5), (0, said(&[3, 3, 7, 2, 4, 1, 2, 1], [0, 1, 3])));
    assert_eq!(atom(&[0xF2, 0x00, 0x61, 0x62], 5), (0, said(&[4, 3, 7, 2, 4, 2, 2, 1], [0, 2, 4])));
    assert_eq!(atom(&[0x03], 5), (0, said(&[1, 5, 0, 3, 1, 1], [0, 1, 1])));
    assert_eq!(atom(&[0x05], 5), (0, said(&[1, 5, 0, 5, 7], [0, 1, 1])));
}

#[test]
fn refusals() {
    assert_eq!(atom(&[0x24], 9), (6, said(&[1, 4, 1, 5], NONE)));
    assert_eq!(atom(&[0x24], 4), (5, said(&[1, 4], NONE)));
    assert_eq!(atom(&[0x07], 4), (3, said(&[1, 4, 7], NONE)));
    assert_eq!(atom(&[0x41, 0x2C], 4), (4, said(&[2, 2], NONE)));
}

#[test]
fn zeros_past_the_end() {
    assert_eq!(filled(&[0x41, 0x2C], 4), (0, said(&[2, 2, 2, 1, 2, 6, 44, 0], [0, 1, 2])));
    assert_eq!(filled(&[], 4), (0, said(&[0, 4, 0, 0], [0, 0, 0])));
    assert_eq!(filled(&[0xE2, 0x61], 4), (4, said(&[2, 2], NONE)));
    let signature =
        |read: unsafe extern "C" fn(_, _, _, _, _) -> u64| asked(|w, n| unsafe { read(b"Pot".as_ptr(), 3, 0, w, n) });
    assert_eq!(signature(pot_read_header_filled), (0, said(&[3, 0], NONE)));
    assert_eq!(signature(pot_read_header), (4, said(&[3], NONE)));
    assert_eq!(signature(pot_read_header_exact), (4, said(&[3], NONE)));
}

#[test]
fn whole_files() {
    let body = [0xE3, 0x6E, 0xC3, 0xA9, 0x41, 0x2C, 0x01, 0x42, 0x70, 0x11, 0x01, 0x61, 0x00, 0x3E, 0x00];
    let run = |budget| asked(|w, n| unsafe { pot_run(body.as_ptr(), body.len(), budget, w, n) });
    assert_eq!(run(20), (0, said(&[15, 9, 5], [14, 15, 15])));
    assert_eq!(run(4), (5, said(&[5, 1, 1, 4], [0, 1, 4])));
    assert_eq!(run(2), (5, said(&[1, 2, 0, 0], NONE)));
    let tally = |bytes: &[u8]| asked(|w, n| unsafe { pot_tally(bytes.as_ptr(), bytes.len(), w, n) });
    assert_eq!(tally(&body), (0, said(&[5, 10, 11, 2], [14, 15, 15])));
    assert_eq!(tally(&[0x40, 0x00, 0x24]), (6, said(&[2, 1, 5], [0, 1, 2])));
    assert_eq!(tally(&[0x24]), (6, said(&[0, 1, 5], NONE)));
    let long = vec![0; 16_777_217];
    assert_eq!(tally(&long[1..]), (0, said(&[16_777_216], [16_777_215, 16_777_216, 16_777_216])));
    assert_eq!(tally(&long), (10, said(&[], NONE)));
    let check = |bytes: &[u8]| asked(|w, n| unsafe { pot_check(bytes.as_ptr(), bytes.len(), w, n) });
    assert_eq!(check(&body), (0, said(&[], NONE)));
    assert_eq!(check(&long), (0, said(&[], NONE)));
    assert_eq!(check(&[0x40, 0x05, 0x41, 0x05, 0x00]), (11, said(&[2], NONE)));
    assert_eq!(check(&[0x40, 0x00, 0x24]), (6, said(&[2, 1, 5], NONE)));
    assert_eq!(check(&[0x40, 0x00, 0x17, 0x00]), (3, said(&[2, 7], NONE)));
    let skip = asked(|w, n| unsafe { pot_skip_atom(body.as_ptr(), body.len(), 0, 9, w, n) });
    assert_eq!(skip, (0, said(&[4, 6, 1, 1], [0, 1, 4])));
}

#[test]
fn no_room_for_the_words() {
    // None, as many as there once were, and one too few.
    for count in [0, 8, POT_WORDS - 1] {
        let mut words = [OLD; POT_WORDS];
        let (source, mut out) = ([0xE2, 0x61, 0x62], [9u8; 4]);
        let (given, room, size, w) = (source.as_ptr(), out.as_mut_ptr(), out.len(), words.as_mut_ptr());
        let numbers = unsafe {
            [
                pot_write_u8(room, size, 1, w, count),
                pot_write_special(room, size, 1, w, count),
                pot_read_header(given, source.len(), 0, w, count),
                pot_read_header_filled(given, source.len(), 0, w, count),
                pot_read_header_exact(given, source.len(), 0, w, count),
                pot_read_atom(given, source.len(), 0, 9, w, count),
                pot_read_atom_filled(given, source.len(), 0, 9, w, count),
                pot_read_atom_exact(given, source.len(), 0, 9, w, count),
                pot_read_atom_copied(given, source.len(), 0, 9, room, size, w, count),
                pot_run(given, source.len(), 9, w, count),
                pot_tally(given, source.len(), w, count),
                pot_check(given, source.len(), w, count),
            ]
        };
        assert_eq!((numbers, words, out), ([9; 12], [OLD; POT_WORDS], [9; 4]));
    }
}

#[test]
fn numbers_that_name_nothing() {
    let mut out = [9u8; 4];
    let (room, size) = (out.as_mut_ptr(), out.len());
    assert_eq!(asked(|w, n| unsafe { pot_write_atom_header(room, size, 8, 0, w, n) }).0, 2);
    assert_eq!(asked(|w, n| unsafe { pot_write_special(room, size, 7, w, n) }).0, 3);
    assert_eq!(asked(|w, n| unsafe { pot_write_integer(room, size, 10, 0, 0, w, n) }).0, 8);
    assert_eq!(asked(|w, n| unsafe { pot_write_integer(room, size, 0, 128, 0, w, n) }).0, 8);
    assert_eq!(asked(|w, n| unsafe { pot_integer_cast(10, 0, 1, 0, w, n) }).0, 8);
    assert_eq!(out, [9; 4]);
}
