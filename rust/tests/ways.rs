//! What the ways of reading have in common and where they part, for whoever moves from one to another. The entry that names
//! no way is the exact one. Where it reads, filled reading reads the same; where only filled reading reads, the source
//! ends within the atom. Asked of sets of sources that are gone through whole, at every place up to one past the end.
use dimewagon::*;

/// More zeros than an atom can take past the end of a source, unless it is a string: one for its header, 16 for its number.
const ZEROS: [u8; 20] = [0; 20];

/// Budgets: none, one for each count up to a number of four bytes, and enough.
const BUDGETS: [u64; 5] = [0, 1, 2, 4, u64::MAX];

/// Bytes of which sources are made: headers of every kind, short and long, and of counts and specials that are refused.
/// Each is a byte of a body too.
const TELLING: [u8; 19] =
    [0x00, 0x07, 0x10, 0x17, 0x21, 0x41, 0x43, 0x44, 0x4F, 0x61, 0x67, 0x80, 0x91, 0xB1, 0xC1, 0xE1, 0xE2, 0xF1, 0xFF];

/// Bytes of signatures: the three letters, two that have more bits, one that has fewer, and versions.
const SIGNATURE: [u8; 7] = [0x50, 0x6F, 0x74, 0x70, 0xFF, 0x00, 0x01];

/// How many answers of each kind there were.
#[derive(Debug, Default)]
struct Counts {
    /// Read by both, the same.
    both: u32,
    /// Read by filled reading alone: the source ends within the atom's body, or past its header.
    body_cut: u32,
    /// The same, but within its header.
    header_cut: u32,
    /// The same, but before its first byte: the place is the end, or past it.
    at_the_end: u32,
    /// Refused by both: a string that runs out.
    string_cut: u32,
    /// Refused by both, and not alike: filled reading goes on past the end of a header.
    apart: u32,
    /// Refused by both alike.
    alike: u32,
}

impl Counts {
    fn none_is_zero(&self) {
        let Self { both, body_cut, header_cut, at_the_end, string_cut, apart, alike } = *self;
        let counts = [both, body_cut, header_cut, at_the_end, string_cut, apart, alike];
        assert!(counts.into_iter().all(|count| count > 0), "{self:?}");
        println!("{self:?}");
    }
}

/// Whether two atoms hold the same, wherever they are. Compared by what is shown too, since a NaN equals nothing; its stored
/// bits are shown.
fn hold_the_same(left: &Atom<'_>, right: &Atom<'_>) -> bool {
    let nuclei = left.nucleus == right.nucleus || format!("{:?}", left.nucleus) == format!("{:?}", right.nucleus);
    nuclei && (left.kind, left.arg) == (right.kind, right.arg)
}

fn same(left: &Read<'_>, right: &Read<'_>) -> bool {
    let places = (left.atom.places, left.place) == (right.atom.places, right.place);
    places && left.budget == right.budget && hold_the_same(&left.atom, &right.atom)
}

/// Two answers that are the same in every respect.
fn alike(left: &Result<Read<'_>, Stopped>, right: &Result<Read<'_>, Stopped>) -> bool {
    match (left, right) {
        (Ok(left), Ok(right)) => same(left, right),
        (Err(left), Err(right)) => left == right,
        _ => false,
    }
}

/// Reads one atom by each way, and says which kind of answer it was.
fn atom(source: &[u8], place: usize, budget: u64, counts: &mut Counts) {
    let told = || format!("{source:02X?} at {place} with {budget}");
    let end = source.len();
    let unnamed = read_atom(source, place, budget);
    assert!(alike(&unnamed, &read_atom_exact(source, place, budget)), "{}", told());
    copied(source, place, budget, &unnamed);
    let filled = read_atom_filled(source, place, budget);
    match (unnamed, filled) {
        (Ok(exact), Ok(read)) => {
            assert!(same(&exact, &read) && exact.place <= end, "{}", told());
            counts.both += 1;
        }
        (Err(stopped), Ok(read)) => {
            assert_eq!((stopped.refusal, stopped.place, read.place), (Refusal::Eof, end, end), "{}", told());
            let body = ends_within(source, place, budget, &read);
            let count = match (place < end, body <= end) {
                (true, true) => &mut counts.body_cut,
                (true, false) => &mut counts.header_cut,
                (false, _) => &mut counts.at_the_end,
            };
            *count += 1;
        }
        (Err(exact), Err(stopped)) if exact == stopped && exact.refusal == Refusal::Eof => {
            let longer = [source, &ZEROS].concat();
            let read = read_atom(&longer, place, budget);
            assert!(read.map_or_else(|longer| longer.refusal == Refusal::Eof, |read| read.atom.kind == Kind::Bytes));
            counts.string_cut += 1;
        }
        (Err(exact), Err(stopped)) if exact == stopped => counts.alike += 1,
        (Err(exact), Err(stopped)) => {
            // The header ends past the source, and with zeros it is that of an atom which is refused.
            assert_eq!((exact.refusal, exact.place, stopped.place), (Refusal::Eof, end, end), "{}", told());
            assert_eq!(exact.budget, budget, "{}", told());
            counts.apart += 1;
        }
        (Ok(_), Err(_)) => panic!("read exactly and not filled: {}", told()),
    }
}

/// Copying differs from exact reading in where the string is, and in nothing else.
fn copied(source: &[u8], place: usize, budget: u64, exact: &Result<Read<'_>, Stopped>) {
    let mut scratch = [0xA5; 32];
    let area = scratch.as_ptr_range();
    let copied = read_atom_copied(source, place, budget, &mut scratch);
    assert!(alike(&copied, exact), "{source:02X?} at {place} with {budget}");
    if let (Ok(copied), Ok(exact)) = (copied, exact) {
        let strings = copied.atom.nucleus.bytes().zip(exact.atom.nucleus.bytes());
        assert!(strings.map_or(true, |(string, lent)| {
            string.is_empty() || (string.as_ptr() == area.start && source.as_ptr_range().contains(&lent.as_ptr()))
        }));
    }
}

/// That the source ends within an atom which filled reading alone has read: with zeros behind the source, exact reading
/// reads the same atom, and its end lies past the source's. Where the atom's body starts with these zeros.
fn ends_within(source: &[u8], place: usize, budget: u64, filled: &Read<'_>) -> usize {
    let end = source.len();
    let longer = [source, &ZEROS].concat();
    let exact = read_atom(&longer, place.min(end), budget).unwrap();
    assert!(hold_the_same(&exact.atom, &filled.atom) && exact.budget == filled.budget, "{source:02X?} at {place}");
    assert!(exact.place > end, "{source:02X?} at {place}");
    let (with_zeros, places) = (exact.atom.places, filled.atom.places);
    assert_eq!(places.first, with_zeros.first);
    assert_eq!((places.body, places.after), (with_zeros.body.min(end), end), "{source:02X?} at {place}");
    with_zeros.body
}

/// One source, at every place and with every budget.
fn source(bytes: &[u8], counts: &mut Counts) {
    for place in (0..=bytes.len() + 1).chain([usize::MAX]) {
        for budget in BUDGETS {
            atom(bytes, place, budget, counts);
        }
    }
}

/// Every source of so many bytes, each of them one of these.
fn each_of(bytes: &[u8], length: usize, mut ask: impl FnMut(&[u8])) {
    let mut chosen = vec![0; length];
    loop {
        ask(&chosen.iter().map(|&index| bytes[index]).collect::<Vec<_>>());
        let Some(last) = chosen.iter().rposition(|&index| index + 1 < bytes.len()) else { return };
        chosen[last] += 1;
        chosen[last + 1..].fill(0);
    }
}

#[test]
fn every_source_of_at_most_two_bytes() {
    let all: Vec<u8> = (0..=255).collect();
    let mut counts = Counts::default();
    for length in 0..=2 {
        each_of(&all, length, |bytes| source(bytes, &mut counts));
    }
    counts.none_is_zero();
}

#[test]
fn every_source_of_three_and_four_telling_bytes() {
    let mut counts = Counts::default();
    for length in 3..=4 {
        each_of(&TELLING, length, |bytes| source(bytes, &mut counts));
    }
    counts.none_is_zero();
}

/// Each first byte with each length of what may follow it, up to past the longest header and the longest number.
#[test]
fn every_first_byte_cut_at_every_length() {
    let mut counts = Counts::default();
    for first in 0..=255 {
        for (then, last) in
            [(0x00, 0x00), (0x01, 0x01), (0x7F, 0x00), (0x80, 0x00), (0x80, 0x01), (0xFF, 0x7F), (0xFF, 0xFF)]
        {
            let mut bytes = vec![first];
            for _ in 0..18 {
                bytes.push(last);
                for budget in BUDGETS {
                    atom(&bytes, 0, budget, &mut counts);
                    atom(&bytes, bytes.len(), budget, &mut counts);
                }
                *bytes.last_mut().unwrap() = then;
            }
        }
    }
    counts.none_is_zero();
}

/// Filled reading is exact reading of the source with zeros behind it, but for a string that runs out: of an atom whose zeros
/// were trimmed it reads what exact reading reads of the whole.
#[test]
fn filled_reading_is_reading_with_zeros_behind() {
    let (mut reads, mut refusals, mut strings) = (0, 0, 0);
    let mut ask = |source: &[u8]| {
        let longer = [source, &ZEROS].concat();
        for budget in BUDGETS {
            match (read_atom_filled(source, 0, budget), read_atom(&longer, 0, budget)) {
                (Ok(filled), Ok(exact)) => {
                    assert!(hold_the_same(&filled.atom, &exact.atom), "{source:02X?} with {budget}");
                    assert_eq!((filled.place, filled.budget), (exact.place.min(source.len()), exact.budget));
                    reads += 1;
                }
                (Err(filled), Err(exact)) if exact.refusal != Refusal::Eof => {
                    assert_eq!((filled.refusal, filled.budget), (exact.refusal, exact.budget));
                    assert_eq!(filled.place, exact.place.min(source.len()));
                    refusals += 1;
                }
                (filled, exact) => {
                    assert_eq!(filled.unwrap_err().refusal, Refusal::Eof, "{source:02X?} with {budget}");
                    assert!(exact.map_or(true, |read| read.atom.kind == Kind::Bytes), "{source:02X?} with {budget}");
                    strings += 1;
                }
            }
        }
    };
    let all: Vec<u8> = (0..=255).collect();
    (0..=2).for_each(|length| each_of(&all, length, &mut ask));
    (3..=4).for_each(|length| each_of(&TELLING, length, &mut ask));
    assert!(reads > 0 && refusals > 0 && strings > 0);
    println!("reads {reads}, refusals {refusals}, strings {strings}");
}

/// The version of a file and what its atoms hold, by filled reading until the place is the end.
fn import(file: &[u8]) -> Result<(u8, Vec<Nucleus<'_>>), Stopped> {
    let (version, atoms) = read_header_filled(file)?;
    let (mut found, mut place) = (Vec::new(), 0);
    while place < atoms.len() {
        let read = read_atom_filled(atoms, place, u64::MAX)?;
        found.push(read.atom.nucleus);
        place = read.place;
    }
    Ok((version, found))
}

/// Every file of at most four of some atoms, with its trailing zeros trimmed, is imported as it was, without what it had of
/// None at its end; but where it then ends in a string that has lost bytes, it is refused.
#[test]
fn a_trimmed_file_is_imported() {
    const NONE: &[u8] = b"\x00";
    const ENDS_IN_ZERO: &[u8] = b"\xE2a\x00";
    // Also 5, and 0, 200, 0.0 and 2^32, whose last bytes are zeros; a sequence; and a string that has none.
    let atoms = [
        NONE,
        ENDS_IN_ZERO,
        b"\x40\x05",
        b"\x40\x00",
        b"\x21\xC8\x00",
        b"\x61\x00\x00",
        b"\x45\x00\x00\x00\x00\x01\x00",
        b"\x82",
        b"\xE2ab",
    ];
    let (mut imported, mut without_none, mut refused) = (0, 0, 0);
    let mut ask = |version, chosen: &[u8]| {
        let chosen: Vec<&[u8]> = chosen.iter().map(|&index| atoms[usize::from(index)]).collect();
        let file = [b"Pot", &[version][..], &chosen.concat()].concat();
        let kept = chosen.iter().rposition(|&atom| atom != NONE).map_or(0, |last| last + 1);
        let whole = Atoms::of_file(&file).unwrap().1.map(|atom| atom.unwrap().nucleus);
        let wanted: Vec<_> = whole.take(kept).collect();
        let trimmed = &file[..file.iter().rposition(|&byte| byte != 0).unwrap() + 1];
        if chosen[..kept].last() == Some(&ENDS_IN_ZERO) {
            assert_eq!(import(trimmed).unwrap_err().refusal, Refusal::Eof, "{file:02X?}");
            refused += 1;
            return;
        }
        assert_eq!(import(trimmed), Ok((version, wanted)), "{file:02X?}");
        *(if kept == chosen.len() { &mut imported } else { &mut without_none }) += 1;
    };
    let indices: Vec<u8> = (0..atoms.len() as u8).collect();
    for length in 0..=4 {
        each_of(&indices, length, |chosen| (0..=1).for_each(|version| ask(version, chosen)));
    }
    assert!(imported > 0 && without_none > 0 && refused > 0);
    println!("imported {imported}, without None at the end {without_none}, refused {refused}");
}

/// The signature: the exact entries are one, and where only filled reading reads, the version was missing.
#[test]
fn every_signature() {
    let (mut both, mut trimmed, mut apart, mut alike) = (0, 0, 0, 0);
    let mut ask = |source: &[u8]| {
        let unnamed = read_header(source);
        assert_eq!(unnamed, read_header_exact(source));
        match (unnamed, read_header_filled(source)) {
            (Ok(exact), Ok(filled)) => {
                assert_eq!((exact, exact.1.len() + 4), (filled, source.len()));
                both += 1;
            }
            (Err(stopped), Ok((version, body))) => {
                assert_eq!((stopped.refusal, stopped.place), (Refusal::Eof, source.len()));
                // With zeros behind it the signature is the same, and ends past the source.
                let longer = [source, &ZEROS].concat();
                let (with_zeros, rest) = read_header(&longer).unwrap();
                assert_eq!((version, body), (with_zeros, &[][..]));
                assert!(longer.len() - rest.len() > source.len());
                assert_eq!((version, source.len()), (0, 3));
                trimmed += 1;
            }
            (Err(exact), Err(filled)) if exact == filled => {
                assert_eq!((exact.refusal, exact.place), (Refusal::IncompatibleVersion, 4));
                alike += 1;
            }
            (Err(exact), Err(filled)) => {
                assert_eq!((exact.refusal, filled.refusal), (Refusal::Eof, Refusal::IncompatibleVersion));
                assert_eq!((exact.place, filled.place), (source.len(), source.len()));
                apart += 1;
            }
            (Ok(_), Err(_)) => panic!("read exactly and not filled: {source:02X?}"),
        }
    };
    let all: Vec<u8> = (0..=255).collect();
    (0..=2).for_each(|length| each_of(&all, length, &mut ask));
    (3..=5).for_each(|length| each_of(&SIGNATURE, length, &mut ask));
    assert!(both > 0 && trimmed > 0 && apart > 0 && alike > 0);
    println!("both {both}, trimmed {trimmed}, apart {apart}, alike {alike}");
}

/// The words of a call, and more behind them.
type Words = [u64; ffi::POT_WORDS + 1];

/// The number and every word of the entries that name no way are those of the exact ones, at every place and with any
/// number of words.
#[test]
fn the_unnamed_entries_answer_the_exact_ones_to_the_word() {
    let asked = |ask: &dyn Fn(*mut u64, usize) -> u64, count| {
        let mut words: Words = [77; ffi::POT_WORDS + 1];
        (ask(words.as_mut_ptr(), count), words)
    };
    let (mut taken, mut refused) = (0, 0);
    let mut ask = |source: &[u8]| {
        let (at, length) = (source.as_ptr(), source.len());
        for place in (0..=length + 1).chain([usize::MAX]) {
            for count in [0, 8, 11, 12, 13] {
                for budget in BUDGETS {
                    // SAFETY: each pointer comes with the length of its own live slice.
                    let unnamed = asked(&|w, n| unsafe { ffi::pot_read_atom(at, length, place, budget, w, n) }, count);
                    let exact =
                        asked(&|w, n| unsafe { ffi::pot_read_atom_exact(at, length, place, budget, w, n) }, count);
                    assert_eq!(unnamed, exact, "{source:02X?} at {place} with {budget}");
                    *(if unnamed.0 == 0 { &mut taken } else { &mut refused }) += 1;
                }
                // SAFETY: as above.
                let unnamed = asked(&|w, n| unsafe { ffi::pot_read_header(at, length, place, w, n) }, count);
                let exact = asked(&|w, n| unsafe { ffi::pot_read_header_exact(at, length, place, w, n) }, count);
                assert_eq!(unnamed, exact, "{source:02X?} at {place}");
            }
        }
    };
    (0..=3).for_each(|length| each_of(&TELLING, length, &mut ask));
    (0..=5).for_each(|length| each_of(&SIGNATURE, length, &mut ask));
    assert!(taken > 0 && refused > 0);
    println!("taken {taken}, refused {refused}");
}

/// A number that is cut is read by filled reading of one atom, and by nothing else.
#[test]
fn what_reads_a_whole_source_reads_exactly() {
    for source in [&[0x41, 0x2C][..], &[0x40], &[0x21, 0xC8], &[0x67, 0, 0], &[0x10], &[0x51], &[0x4F]] {
        assert!(read_atom_filled(source, 0, 99).is_ok());
        assert_eq!(skip_atom(source, 0, 99).unwrap_err().refusal, Refusal::Eof);
        assert_eq!(run(source, 99).unwrap_err().refusal, Refusal::Eof);
        assert_eq!(tally(source).unwrap_err().refusal, Refusal::Eof);
        assert_eq!(check(source).unwrap_err().refusal, Refusal::Eof);
        assert_eq!(Atoms::new(source).next().unwrap().unwrap_err().refusal, Refusal::Eof);
        assert_eq!(Atoms::with_budget(source, 99).next().unwrap().unwrap_err().refusal, Refusal::Eof);
    }
    assert!(read_header_filled(b"Pot").is_ok());
    assert_eq!(Atoms::of_file(b"Pot").unwrap_err().refusal, Refusal::Eof);
}
