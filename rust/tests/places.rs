//! The places of atoms: their ranges index the source, and runs, tallies and refusals name the last atom that was read.
use dimewagon::*;

/// A file with an atom of each kind, strings and headers of several lengths among them.
const FILE: &[u8] = b"Pot\x01\
    \xE3n\xC3\xA9\
    \x41\x2C\x01\
    \x51\x00\x2C\x01\
    \x22\x00\x00\x80\
    \x61\x00\x3E\
    \x00\x03\x06\
    \xE0\
    \x82\
    \x90\x80\x01\
    \xA1\
    \xC7\
    \xF0\x01abcdefghijklmnop";

/// The same without its signature.
fn body() -> &'static [u8] {
    &FILE[4..]
}

fn atoms_of_file() -> Vec<Atom<'static>> {
    Atoms::of_file(FILE).unwrap().1.collect::<Result<_, _>>().unwrap()
}

fn atoms(source: &[u8]) -> Vec<Atom<'_>> {
    Atoms::new(source).collect::<Result<_, _>>().unwrap()
}

fn three(places: Places) -> (usize, usize, usize) {
    (places.first, places.body, places.after)
}

#[test]
fn the_bytes_of_an_atom_read_back_alone() {
    for atom in atoms_of_file() {
        let alone = &FILE[atom.places.range()];
        let again = read_atom(alone, 0, u64::MAX).unwrap();
        assert_eq!((again.atom.kind, again.atom.arg, again.atom.nucleus), (atom.kind, atom.arg, atom.nucleus));
        let moved = (0, atom.places.body - atom.places.first, alone.len());
        assert_eq!((three(again.atom.places), again.place), (moved, alone.len()));
    }
}

#[test]
fn an_atom_starts_where_the_one_before_ends() {
    // The places of a file count its signature.
    for (found, first, source) in [(atoms_of_file(), 4, FILE), (atoms(body()), 0, body())] {
        let after = found.iter().fold(first, |before, atom| {
            assert_eq!(atom.places.first, before);
            assert_eq!(atom.places.header_range().end, atom.places.body_range().start);
            atom.places.after
        });
        assert_eq!((found.len(), after), (14, source.len()));
    }
}

#[test]
fn a_header_is_that_of_its_kind_and_argument() {
    // But for the number in four bytes, each header is the shortest.
    for atom in atoms_of_file().into_iter().filter(|atom| atom.places.range() != (11..15)) {
        let mut out = [0; 10];
        let count = write_atom_header(&mut out, atom.kind, atom.arg).unwrap();
        assert_eq!(FILE[atom.places.header_range()], out[..count]);
    }
}

#[test]
fn a_body_is_the_string_or_the_number_as_it_is_stored() {
    for atom in atoms_of_file() {
        let held = &FILE[atom.places.body_range()];
        let mut wide = [0; 16];
        match atom.nucleus {
            Nucleus::Bytes(string) => assert_eq!((string, string.as_ptr()), (held, held.as_ptr())),
            Nucleus::Float(_, stored) => assert_eq!(stored.to_le_bytes()[..held.len()], *held),
            Nucleus::Integer(value) => {
                wide[..held.len()].copy_from_slice(held);
                let unused = 128 - 8 * held.len() as u32;
                let stored = i128::from_le_bytes(wide) << unused >> unused;
                assert_eq!(value.as_i128(), Ok(stored));
            }
            _ => assert!(held.is_empty()),
        }
    }
}

#[test]
fn a_string_that_is_copied_has_the_places_of_the_source() {
    let source = [0x00, 0xE2, 0x61, 0x62];
    let lent = read_atom(&source, 1, 9).unwrap().atom;
    let mut scratch = [9; 4];
    let area = scratch.as_ptr_range();
    let copied = read_atom_copied(&source, 1, 9, &mut scratch).unwrap().atom;
    assert_eq!((three(copied.places), copied.places), ((1, 2, 4), lent.places));
    let string = copied.nucleus.bytes().unwrap();
    assert_eq!(&source[copied.places.body_range()], string);
    assert_eq!(string.as_ptr(), area.start);
}

#[test]
fn an_atom_that_is_skipped_has_the_places_of_the_one_that_is_read() {
    for atom in atoms_of_file() {
        let skipped = skip_atom(FILE, atom.places.first, u64::MAX).unwrap();
        assert_eq!((skipped.places, skipped.place), (atom.places, atom.places.after));
    }
}

#[test]
fn a_place_past_the_end_is_the_end() {
    let source = [0x40, 0x05];
    for place in [2, 3, usize::MAX] {
        let filled = read_atom_filled(&source, place, 0).unwrap();
        assert_eq!((filled.atom.kind, filled.place, three(filled.atom.places)), (Kind::Special, 2, (2, 2, 2)));
        let stopped = read_atom(&source, place, 0).unwrap_err();
        assert_eq!((stopped.refusal, stopped.start, stopped.last), (Refusal::Eof, 2, Places::default()));
        assert_eq!(read_atom_exact(&source, place, 0), Err(stopped));
        assert_eq!(skip_atom(&source, place, 0), Err(stopped));
        assert_eq!(read_atom_copied(&source, place, 0, &mut []), Err(stopped));
    }
}

#[test]
fn filled_reading_ends_at_the_end() {
    let places = |source: &[u8], place| three(read_atom_filled(source, place, u64::MAX).unwrap().atom.places);
    assert_eq!(places(&[], 0), (0, 0, 0));
    // A number of two bytes with one, with none, and with none after a header that is cut.
    assert_eq!(places(&[0x41, 0x2C], 0), (0, 1, 2));
    assert_eq!(places(&[0x41], 0), (0, 1, 1));
    assert_eq!(places(&[0x00, 0x51], 1), (1, 2, 2));
}

#[test]
fn places_rise_or_stay_level_past_the_end() {
    let mut before = (0, 0, 0);
    let mut place = 0;
    for _ in 0..20 {
        let read = read_atom_filled(body(), place, u64::MAX).unwrap();
        let now = three(read.atom.places);
        assert!(before.0 <= now.0 && before.1 <= now.1 && before.2 <= now.2);
        assert_eq!((now.0, now.2), (place, read.place));
        (before, place) = (now, read.place);
    }
    let end = body().len();
    assert_eq!(before, (end, end, end));
}

#[test]
fn a_run_and_a_tally_answer_the_last_atom() {
    let last = atoms(body()).last().unwrap().places;
    assert_eq!(three(last), (28, 30, 46));
    assert_eq!(run(body(), u64::MAX).unwrap().last, last);
    assert_eq!(tally(body()).unwrap().last, last);
    // At every length, refused or not, they agree with the iterator.
    for length in 0..body().len() {
        let source = &body()[..length];
        let before = atoms(body()).into_iter().map(|atom| atom.places).rev().find(|places| places.after <= length);
        let before = before.unwrap_or_default();
        let ran = run(source, u64::MAX);
        assert_eq!(ran.map_or_else(|stopped| stopped.last, |ran| ran.last), before);
        assert_eq!(tally(source).map_or_else(|refused| refused.last, |tally| tally.last), before);
        if let Some(Err(stopped)) = Atoms::new(source).last() {
            assert_eq!((stopped.last, Err(stopped)), (before, ran));
            assert_eq!(stopped.start, before.after);
        }
    }
}

#[test]
fn the_last_atom_is_the_one_before_the_refused_one() {
    let source = [0x40, 0x05, 0xE2, 0x61, 0x62, 0x24, 0x00];
    let stopped = run(&source, u64::MAX).unwrap_err();
    assert_eq!((stopped.start, stopped.atoms, three(stopped.last)), (5, 2, (2, 3, 5)));
    assert_eq!(tally(&source), Err(stopped.into()));
    assert_eq!(Atoms::new(&source).last(), Some(Err(stopped)));
    // The budget is enough for the first atom alone.
    let stopped = run(&source, 2).unwrap_err();
    assert_eq!((stopped.refusal, three(stopped.last)), (Refusal::TooManyBytesRead, (0, 1, 2)));
    assert_eq!(Atoms::with_budget(&source, 2).last(), Some(Err(stopped)));
    // Places of a file count its signature.
    let (_, atoms) = Atoms::of_file(b"Pot\x01\x40\x05\x24").unwrap();
    let stopped = atoms.last().unwrap().unwrap_err();
    assert_eq!((stopped.start, three(stopped.last)), (6, (4, 5, 6)));
}

#[test]
fn zeros_where_no_atom_was_read() {
    let none = Places::default();
    assert_eq!(three(none), (0, 0, 0));
    assert_eq!((run(&[], 0).unwrap().last, tally(&[]).unwrap().last), (none, none));
    let refused = [0x24];
    assert_eq!((run(&refused, 9).unwrap_err().last, tally(&refused).unwrap_err().last), (none, none));
    assert_eq!(Atoms::new(&refused).last().unwrap().unwrap_err().last, none);
    assert_eq!(tally(&vec![0; 16_777_217]).unwrap_err().last, none);
    // One atom that is refused, and a signature, have none before them.
    let source = [0x40, 0x05, 0x24];
    assert_eq!(read_atom(&source, 2, 9).unwrap_err().last, none);
    assert_eq!(read_atom_filled(&source, 2, 9).unwrap_err().last, none);
    assert_eq!(read_atom_exact(&source, 2, 9).unwrap_err().last, none);
    assert_eq!(read_atom_copied(&source, 2, 9, &mut []).unwrap_err().last, none);
    assert_eq!(skip_atom(&source, 2, 9).unwrap_err().last, none);
    assert_eq!((read_header(b"Pot").unwrap_err().last, read_header_exact(b"Pot").unwrap_err().last), (none, none));
    assert_eq!(read_header_filled(&source).unwrap_err().last, none);
}
