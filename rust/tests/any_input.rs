//! Any input: nothing panics, and the ways of reading one source agree.
use dimewagon::*;

/// Compares by what is shown, since a NaN equals nothing.
fn assert_same<'a>(left: Result<Read<'a>, Stopped>, right: Result<Read<'a>, Stopped>) {
    assert!(left == right || format!("{left:?}") == format!("{right:?}"), "{left:?}, {right:?}");
}

/// Reads a source by every function, from a place.
fn read_all(source: &[u8], place: usize, budget: u64) {
    let exact = read_atom_exact(source, place, budget);
    let mut scratch = [0; 64];
    assert_same(read_atom_copied(source, place, budget, &mut scratch), exact);
    let skipped = skip_atom(source, place, budget).map(|atom| (atom.place, atom.budget, atom.places));
    assert_eq!(skipped, exact.map(|read| (read.place, read.budget, read.atom.places)));
    assert_same(read_atom(source, place, budget), exact);
    let filled = read_atom_filled(source, place, budget);
    if let Ok(read) = exact {
        assert_same(filled, exact);
        convert(read.atom.nucleus);
    }
    if let Ok(read) = filled {
        stands(&read, source, place);
    }
    let _ = (read_header(source), read_header_filled(source), read_header_exact(source), Atoms::of_file(source));
}

/// The places of an atom that was read at a place.
fn stands(read: &Read<'_>, source: &[u8], place: usize) {
    let places = read.atom.places;
    assert_eq!((places.first, places.after), (place.min(source.len()), read.place));
    assert_eq!([&source[places.header_range()], &source[places.body_range()]].concat(), source[places.range()]);
    if let Some(string) = read.atom.nucleus.bytes() {
        assert_eq!(&source[places.body_range()], string);
    }
}

/// Casts a number by every function.
fn convert(nucleus: Nucleus<'_>) {
    if let Some(x) = nucleus.integer() {
        let wide = x.as_i128().map(|value| value.to_string()).or(x.as_u128().map(|value| value.to_string()));
        assert_eq!(wide, Ok(x.to_string()));
        let _ = (x.as_i8(), x.as_u8(), x.as_i16(), x.as_u16(), x.as_i32(), x.as_u32(), x.as_i64(), x.as_u64());
        assert!(x.as_f32().map_or(true, |value| x.as_f64() == Ok(value.into())));
    }
    if let Some(x) = nucleus.float() {
        let _ = x.as_integer();
        assert!(x.as_f32().map_or(true, |value| Float::F32(value) == x || value.is_nan()));
    }
}

/// The iterator, the run and the tally find the same atoms, the same last one and the same refusal.
fn walk(source: &[u8], budget: u64) {
    let mut atoms = Atoms::with_budget(source, budget);
    let (mut count, mut last) = (0, Places::default());
    let refused = loop {
        match atoms.next() {
            Some(Ok(atom)) => (count, last) = (count + 1, atom.places),
            Some(Err(stopped)) => break Some(stopped),
            None => break None,
        }
    };
    assert!(atoms.next().is_none());
    match run(source, budget) {
        Ok(ran) => assert_eq!((ran.atoms, ran.budget, ran.last, refused), (count, atoms.budget(), last, None)),
        Err(stopped) => assert_eq!((stopped.last, Some(stopped)), (last, refused)),
    }
    match (tally(source), refused) {
        (Ok(tally), None) => assert_eq!((tally.atoms, tally.last), (count, last)),
        (Err(by_tally), Some(stopped)) if stopped.refusal != Refusal::TooManyBytesRead => {
            assert_eq!(by_tally, stopped.into())
        }
        (tally, stopped) => assert_eq!(stopped.map(|at| at.refusal), Some(Refusal::TooManyBytesRead), "{tally:?}"),
    }
    checked(source);
}

/// What the check accepts the tally reads to its end, and what it refuses but by 11 the tally refuses alike.
fn checked(source: &[u8]) {
    match (check(source), tally(source)) {
        (Ok(()), by_tally) => assert!(by_tally.is_ok(), "{source:02X?}"),
        (Err(refused), by_tally) if refused.refusal == Refusal::NotShortest => {
            assert!(by_tally.map_or_else(|later| later.start > refused.start, |_| true), "{source:02X?}");
        }
        (Err(refused), by_tally) => {
            let by_tally = by_tally.unwrap_err();
            assert_eq!((refused.refusal, refused.start), (by_tally.refusal, by_tally.start));
        }
    }
}

#[test]
fn all_sources_of_two_bytes() {
    for bytes in 0..=u16::MAX {
        let source = bytes.to_le_bytes();
        for length in 0..=2 {
            read_all(&source[..length], 0, u64::MAX);
            walk(&source[..length], u64::MAX);
        }
        read_all(&source, 1, 1);
    }
}

#[test]
fn sources_at_random() {
    let mut state = 1_u64;
    let mut draw = || {
        // Knuth's linear congruence; its high bits are the better ones.
        state = state.wrapping_mul(6364136223846793005).wrapping_add(1442695040888963407);
        state >> 33
    };
    for _ in 0..100_000 {
        let source: Vec<u8> = (0..draw() % 24).map(|_| draw() as u8).collect();
        let place = if draw() % 8 == 0 { usize::MAX } else { draw() as usize % 26 };
        let budget = if draw() % 2 == 0 { draw() % 20 } else { u64::MAX };
        read_all(&source, place, budget);
        walk(&source, budget);
    }
}
