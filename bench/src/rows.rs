//! The rows of the race.

use std::cell::RefCell;

use crate::inputs::{self, Draw};
use crate::proved::{Way, Writer};
#[cfg(feature = "exports")]
use crate::reader::{IoReader, SliceReader};
use crate::timing::Race;
use crate::{original, proved};
#[cfg(feature = "exports")]
use crate::{Found, Places, WORDS};

const BUDGET: u64 = u64::MAX;

/// Every way over one file's atoms. The original knows no lent string under exact reading: it copies in both.
fn file(race: &mut Race, name: &str, source: &[u8]) {
    let atoms = proved::run(source, BUDGET).expect("the file is whole").atoms as usize;
    let theirs = RefCell::new(Vec::new());
    let ours = RefCell::new(vec![0; 1 << 16]);
    let filled = || original::read_filled(source, BUDGET, &mut theirs.borrow_mut()).ok();
    let exact = || original::read_exact(source, BUDGET, &mut theirs.borrow_mut()).ok();
    let read = |way| proved::read(source, BUDGET, &mut ours.borrow_mut(), way).ok();
    race.row(name, "read, filled", atoms, filled, || read(Way::Filled));
    race.row(name, "read, exact, lent", atoms, exact, || read(Way::ExactLent));
    race.row(name, "read, exact, copied", atoms, exact, || read(Way::ExactCopied));
    let run = || original::run(source, BUDGET, &mut theirs.borrow_mut()).ok();
    race.row(name, "run", atoms, run, || proved::run(source, BUDGET).ok());
    let run = || original::run_filled(source, BUDGET, &mut theirs.borrow_mut()).ok();
    race.row(name, "run, Rust filled", atoms, run, || proved::run(source, BUDGET).ok());
    let tally = || original::tally(source, &mut theirs.borrow_mut()).ok();
    race.row(name, "tally", atoms, tally, || proved::tally(source).ok());
    let tally = || original::tally_filled(source, &mut theirs.borrow_mut()).ok();
    race.row(name, "tally, Rust filled", atoms, tally, || proved::tally(source).ok());
    refuse_longer(name, source);
    let check = || original::check(source, &mut theirs.borrow_mut());
    race.row(name, "check", atoms, check, || proved::check(source));
    let check = || original::check_filled(source, &mut theirs.borrow_mut());
    race.row(name, "check, Rust filled", atoms, check, || proved::check(source));
}

/// That both sides accept the file, and refuse it with 5 in two bytes behind it, at its place.
fn refuse_longer(name: &str, source: &[u8]) {
    let longer = [source, &[0x41, 0x05, 0x00]].concat();
    let mut scratch = Vec::new();
    for (bytes, expected) in [(source, Ok(())), (&longer, Err(source.len() as u64))] {
        let answers =
            [original::check(bytes, &mut scratch), original::check_filled(bytes, &mut scratch), proved::check(bytes)];
        assert_eq!(answers, [expected; 3], "{name}: a check of {} bytes", bytes.len());
    }
}

/// A file atom by atom, a call for each, the original behind the same boundary as the library's exports.
#[cfg(feature = "exports")]
fn boundary(race: &mut Race, name: &str, source: &[u8]) {
    let mut scratch = vec![0; 1 << 16];
    calls(race, name, "filled", source, false, original::read_one::<SliceReader>, |place, budget, words| {
        proved::read_one_filled(source, place, budget, words)
    });
    calls(race, name, "exact, lent", source, false, original::read_one::<IoReader<&[u8]>>, |place, budget, words| {
        proved::read_one_exact(source, place, budget, words)
    });
    calls(race, name, "exact, copied", source, true, original::read_one::<IoReader<&[u8]>>, |place, budget, words| {
        proved::read_one_copied(source, place, budget, &mut scratch, words)
    });
}

/// One way of them.
#[cfg(feature = "exports")]
#[inline(always)]
fn calls(
    race: &mut Race,
    name: &str,
    what: &str,
    source: &[u8],
    copied: bool,
    original: original::ReadOne,
    mut library: impl FnMut(usize, u64, &mut [u64; WORDS]) -> u64,
) {
    let atoms = proved::run(source, BUDGET).expect("the file is whole").atoms as usize;
    let mut scratch = Vec::new();
    // Behind a boundary a caller does not know the function, and can't have it made for its own arguments.
    let read = std::hint::black_box(original);
    let mut rust = |place, budget, words: &mut [u64; WORDS]| {
        let (at, length) = (source.as_ptr(), source.len());
        // SAFETY: each address comes with the number of what is there.
        unsafe { read(at, length, place, budget, &mut scratch, words.as_mut_ptr(), words.len()) }
    };
    let rust = || whole(source, copied, &mut rust);
    race.row(name, &format!("a call an atom, {what}"), atoms, rust, || whole(source, copied, &mut library));
}

/// Without the exports these rows are left out.
#[cfg(not(feature = "exports"))]
fn boundary(_: &mut Race, _: &str, _: &[u8]) {}

/// Asks for atom after atom until the end, and folds the words of each that the two sides lay alike: of a copied string its
/// length alone, of a float not the stored bits. Each word is taken out by itself, as a program in C takes those that it
/// needs: a compiler that makes one load of two has both sides wait, on some ways and not on others, for the stores to end.
#[cfg(feature = "exports")]
#[inline(always)]
fn whole(source: &[u8], copied: bool, read: &mut impl FnMut(usize, u64, &mut [u64; WORDS]) -> u64) -> Option<Found> {
    let (mut sum, mut atoms, mut place, mut budget) = (0, 0, 0, BUDGET);
    let mut words = [0; WORDS];
    while place < source.len() {
        if read(place, budget, &mut words) != 0 {
            return None;
        }
        // SAFETY: a reference to a word that is there.
        let word = |at: usize| unsafe { std::ptr::read_volatile(&words[at]) };
        let case = word(4);
        let held = match case {
            4 if copied => word(6),
            3 => word(5) ^ word(6),
            _ => word(5) ^ word(6) ^ word(7),
        };
        let places = Places { first: word(8), body: word(9), after: word(10) };
        sum = original::fold(sum, word(2) ^ word(3) ^ case ^ held ^ places.word());
        atoms += 1;
        (place, budget) = (word(0) as usize, word(1));
    }
    Some(Found { sum, atoms, place: place as u64, budget, last: Places::default() })
}

/// Dictionaries of hyphenation patterns; the signature is not an atom.
pub fn dictionaries(race: &mut Race, dictionaries: &[(String, Vec<u8>)]) {
    for (name, packed) in dictionaries {
        file(race, name, &packed[4..]);
        boundary(race, name, &packed[4..]);
    }
}

pub fn files(race: &mut Race) -> std::io::Result<()> {
    for (name, source) in [
        ("small atoms", inputs::small_atoms(100_000)?),
        ("long strings", inputs::long_strings(500)?),
        ("integers", inputs::integers(100_000)?),
        ("16-byte integers", inputs::wide_integers(100_000)?),
        ("floats", inputs::floats(100_000)?),
    ] {
        file(race, name, &source);
        boundary(race, name, &source);
    }
    Ok(())
}

/// The tally of texts by how their marks are stored: what is counted there is letters.
pub fn texts(race: &mut Race) -> std::io::Result<()> {
    for (name, source) in inputs::texts(500)? {
        let atoms = proved::run(&source, BUDGET).expect("the file is whole").atoms as usize;
        let mut scratch = Vec::new();
        race.row(name, "tally", atoms, || original::tally(&source, &mut scratch).ok(), || proved::tally(&source).ok());
    }
    Ok(())
}

/// How many values a writer is given.
const VALUES: usize = 10_000;

/// A row of one writer: both sides fill a buffer, and the buffers are compared.
fn writer(race: &mut Race, what: &str, writer: Writer, text: &[u8], values: &[[u64; 2]]) {
    let room = values.len() * 17 + if matches!(writer, Writer::Bytes) { values.len() * text.len() } else { 0 };
    let (mut left, mut right) = (vec![0; room], vec![0; room]);
    let counts = (original::write(writer, text, values, &mut left), proved::write(writer, text, values, &mut right));
    assert_eq!(counts.0, counts.1, "{what}: the two sides differ");
    assert!(left == right, "{what}: the two sides differ");
    let theirs = || original::write(writer, text, values, &mut left);
    race.row("writers", what, values.len(), theirs, || proved::write(writer, text, values, &mut right));
}

/// Words whose magnitudes are spread over all widths up to that many bits, with a high word as often zero.
fn spread(seed: u64, bits: u64) -> Vec<[u64; 2]> {
    let mut draw = Draw(seed);
    let mut word = |bits: u64| draw.next() >> (64 - bits) >> draw.below(bits);
    (0..VALUES).map(|_| [word(bits), if word(1) == 0 { 0 } else { word(64) }]).collect()
}

fn drawn(seed: u64, make: impl Fn(&mut Draw) -> u64) -> Vec<[u64; 2]> {
    let mut draw = Draw(seed);
    (0..VALUES).map(|_| [make(&mut draw), 0]).collect()
}

/// A value of binary16, normal or subnormal, of binary32, or of binary64.
fn float(draw: &mut Draw) -> f64 {
    let value = draw.next();
    match draw.below(4) {
        0 => (value % 2048) as f64 / 4.0,
        1 => (1 + value % 1023) as f64 / 16_777_216.0,
        2 => f64::from((value % 1_000_000) as f32 / 3.0),
        _ => (value % 1_000_000) as f64 / 7.0,
    }
}

pub fn writers(race: &mut Race) {
    let numbers = [
        ("write_i8", Writer::I8, 8),
        ("write_i16", Writer::I16, 16),
        ("write_i24", Writer::I24, 24),
        ("write_i32", Writer::I32, 32),
        ("write_i48", Writer::I48, 48),
        ("write_i64", Writer::I64, 64),
        ("write_i128", Writer::I128, 64),
        ("write_u8", Writer::U8, 8),
        ("write_u16", Writer::U16, 16),
        ("write_u24", Writer::U24, 24),
        ("write_u32", Writer::U32, 32),
        ("write_u48", Writer::U48, 48),
        ("write_u64", Writer::U64, 64),
        ("write_u128", Writer::U128, 64),
        ("write_bool", Writer::Bool, 1),
        ("write_header", Writer::Header, 8),
        ("write_atom_header, below 16", Writer::AtomHeader, 4),
        ("write_atom_header, all lengths", Writer::AtomHeader, 64),
    ];
    for (seed, (what, number, bits)) in numbers.into_iter().enumerate() {
        writer(race, what, number, &[], &spread(seed as u64, bits));
    }
    writer(race, "write_special", Writer::Special, &[], &drawn(21, |draw| draw.below(7)));
    writer(race, "write_f32", Writer::F32, &[], &drawn(22, |draw| u64::from((float(draw) as f32).to_bits())));
    writer(race, "write_f64", Writer::F64, &[], &drawn(23, |draw| float(draw).to_bits()));
    let text = b"Donaudampfschiffahrtsgesellschaft".repeat(40);
    writer(race, "write_bytes, 1 to 12", Writer::Bytes, &text, &drawn(24, |draw| 1 + draw.below(12)));
    let mut long = drawn(25, |draw| 800 + draw.below(400));
    long.truncate(500);
    writer(race, "write_bytes, about 1 KB", Writer::Bytes, &text, &long);
}
