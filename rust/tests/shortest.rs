//! The check for shortest form: what the writers write is accepted; the same with a longer header, in a larger count or
//! in a wider float is refused by 11, at its place; and of one atom 3, 4 and 6 come before 11.
use dimewagon::*;

const NOT_SHORTEST: u64 = 11;

/// The refusal's number and where the atom starts, or none of what is accepted.
fn refused(source: &[u8]) -> Option<(u64, usize)> {
    check(source).err().map(|refused| {
        assert_eq!(refused.last, Places::default());
        (refused.refusal.number(), refused.start)
    })
}

/// Asks for an atom alone, and between others: None, 300 and "ab", which take 7 bytes, and the same again.
fn assert_refused(atom: &[u8], number: u64) {
    let before = [0x00, 0x41, 0x2C, 0x01, 0xE2, b'a', b'b'];
    assert_eq!(refused(atom), Some((number, 0)), "{atom:02X?}");
    let among = [&before, atom, &before].concat();
    assert_eq!(refused(&among), Some((number, 7)), "{atom:02X?} among others");
}

/// What a writer writes.
fn written(write: impl FnOnce(&mut [u8]) -> Result<usize, Refusal>) -> Vec<u8> {
    let mut out = vec![0; 4096];
    let count = write(&mut out).unwrap();
    out.truncate(count);
    out
}

/// Values around each power of two, of both signs.
fn edges() -> Vec<i128> {
    let powers = (0..127).map(|bit| 1_i128 << bit);
    let near = powers.flat_map(|power| [power - 1, power, power + 1]).chain([i128::MAX]);
    near.flat_map(|value| [value, -value, -value - 1]).collect()
}

/// Writes a value by each writer of integers whose type has it, but for those of 24 and 48 bits where these refuse it.
macro_rules! by_each_writer {
    ($atoms:ident, $value:expr, $($write:ident $type:ident)*) => {
        $(
            let mut out = [0; 17];
            if let Some(Ok(count)) = $type::try_from($value).ok().map(|value| $write(&mut out, value)) {
                $atoms.push(out[..count].to_vec());
            }
        )*
    };
}

fn integers() -> Vec<Vec<u8>> {
    let mut atoms = Vec::new();
    for value in edges() {
        by_each_writer!(atoms, value, write_i8 i8 write_i16 i16 write_i32 i32 write_i64 i64 write_i128 i128);
        by_each_writer!(atoms, value, write_u8 u8 write_u16 u16 write_u32 u32 write_u64 u64 write_u128 u128);
        by_each_writer!(atoms, value, write_i24 i32 write_i48 i64 write_u24 u32 write_u48 u64);
    }
    for value in [1 << 127, u128::MAX - 1, u128::MAX] {
        by_each_writer!(atoms, value, write_u128 u128);
    }
    let by_variant =
        [Integer::I8(-1), Integer::I16(5), Integer::I128(i128::MIN), Integer::U32(200), Integer::U128(1 << 64)];
    atoms.extend(by_variant.map(|value| written(|out| write_integer(out, value))));
    atoms
}

/// Magnitudes of each class: zero, infinity, and normal and subnormal ones of each width, those at the edges among them.
fn magnitudes() -> Vec<f64> {
    let two = |exponent: i32| 2_f64.powi(exponent);
    let halves = [two(-24), 3.0 * two(-24), two(-14) - two(-24), two(-14), 1.0, 1.5, 2048.0, 2049.0, 65504.0];
    let singles = [two(-25), 65520.0, 65536.0, 16_777_215.0, two(-126), two(-149), f32::MAX.into(), 0.1_f32.into()];
    let doubles =
        [two(-150), two(128), 0.1, 16_777_217.0, f64::MAX, f64::MIN_POSITIVE, two(-1074), f64::from(f32::MAX) + 1.0];
    [&[0.0, f64::INFINITY], &halves[..], &singles[..], &doubles[..]].concat()
}

/// Floats that are no NaN.
fn floats() -> Vec<f64> {
    magnitudes().into_iter().flat_map(|value| [value, -value]).collect()
}

fn nans() -> Vec<Vec<u8>> {
    let singles = [0x7FC0_0000, 0xFFC0_0000, 0x7F80_0001, 0xFFFF_FFFF].map(f32::from_bits);
    let doubles = [0x7FF8_0000_0000_0000, 0x7FF0_0000_0000_0001, 0xFFF8_0000_2000_0000, u64::MAX].map(f64::from_bits);
    let halves = [[0x61, 0x00, 0x7E], [0x61, 0x01, 0x7C], [0x61, 0xFF, 0xFF]].map(|atom| atom.to_vec());
    let written_ones = singles.into_iter().map(|value| written(|out| write_f32(out, value)));
    let written_ones = written_ones.chain(doubles.into_iter().map(|value| written(|out| write_f64(out, value))));
    let all: Vec<_> = written_ones.chain(halves).collect();
    assert_eq!(all.iter().map(Vec::len).collect::<Vec<_>>(), [5, 5, 5, 5, 9, 9, 9, 9, 3, 3, 3]);
    all
}

fn written_floats() -> Vec<Vec<u8>> {
    let doubles = floats().into_iter().map(|value| written(|out| write_f64(out, value)));
    let singles = floats().into_iter().map(|value| written(|out| write_f32(out, value as f32)));
    doubles.chain(singles).collect()
}

fn specials() -> Vec<Vec<u8>> {
    use Special::*;
    let by_code = [None, Unit, False, True, Named, DynamicMap, DynamicEnd];
    let by_code = by_code.into_iter().map(|special| written(|out| write_special(out, special)));
    by_code.chain([written(write_none), written(write_unit), written(write_named)]).collect()
}

fn strings() -> Vec<Vec<u8>> {
    let lengths = [0, 1, 15, 16, 17, 255, 2047, 2048, 2049, 4000];
    lengths.into_iter().map(|length| written(|out| write_bytes(out, &vec![0xC3; length]))).collect()
}

/// Atoms that are their header alone, at the largest argument of each length of a header, and the next.
fn headers() -> Vec<Vec<u8>> {
    let arguments = (0..9).flat_map(|more| [(1_u64 << (4 + 7 * more)) - 1, 1 << (4 + 7 * more)]).chain([0, u64::MAX]);
    let kinds = [Kind::Sequence, Kind::Map, Kind::Symbol];
    let one = |arg| kinds.map(|kind| written(|out| write_atom_header(out, kind, arg)));
    arguments.flat_map(one).collect()
}

/// All of them.
fn atoms() -> Vec<Vec<u8>> {
    [integers(), written_floats(), nans(), specials(), strings(), headers()].concat()
}

/// The length of an atom's header.
fn header_length(atom: &[u8]) -> usize {
    skip_atom(atom, 0, u64::MAX).unwrap().places.body
}

/// The atom with a header of each greater length: the last byte says that another follows, and those that do hold
/// nothing.
fn with_longer_headers(atom: &[u8]) -> Vec<Vec<u8>> {
    let (header, body) = atom.split_at(header_length(atom));
    let (last, before) = header.split_last().unwrap();
    let follows = if before.is_empty() { 0x10 } else { 0x80 };
    let longer = |more: usize| [before, &[last | follows], &vec![0x80; more - 1], &[0x00], body].concat();
    (1..=10 - header.len()).map(longer).collect()
}

/// The integer in each larger count.
fn in_larger_counts(atom: &[u8]) -> Vec<Vec<u8>> {
    let (kind, body) = (atom[0] & 0xE0, &atom[1..]);
    let negative = kind == 0x20 && body[body.len() - 1] >= 0x80;
    let larger = [2, 3, 4, 6, 8, 16].into_iter().filter(|&count| count > body.len());
    let spare = |count: usize| vec![if negative { 0xFF } else { 0x00 }; count - body.len()];
    larger.map(|count| [&[kind | (count - 1) as u8], body, &spare(count)].concat()).collect()
}

fn float_of_4(value: f32) -> Vec<u8> {
    [&[0x63], &value.to_le_bytes()[..]].concat()
}

fn float_of_8(value: f64) -> Vec<u8> {
    [&[0x67], &value.to_le_bytes()[..]].concat()
}

#[test]
fn what_the_writers_write_is_accepted() {
    assert_eq!(refused(&[]), None);
    let atoms = atoms();
    for atom in &atoms {
        assert_eq!(refused(atom), None, "{atom:02X?}");
    }
    assert_eq!(refused(&atoms.concat()), None);
}

#[test]
fn a_longer_header_is_refused() {
    for atom in atoms() {
        for longer in with_longer_headers(&atom) {
            let read = |bytes| skip_atom(bytes, 0, u64::MAX).map(|atom| (atom.budget, atom.string));
            assert_eq!(read(&longer), read(&atom));
            assert_refused(&longer, NOT_SHORTEST);
        }
    }
}

/// Of the tenth byte the writer uses four bits, and the reader drops the others.
#[test]
fn a_tenth_byte_has_no_bits_that_are_dropped() {
    let header = |last| [&[0x9F], &[0xFF; 8][..], &[last]].concat();
    for last in 0..=u8::MAX {
        let expected = if (1..16).contains(&last) { None } else { Some((NOT_SHORTEST, 0)) };
        assert_eq!(refused(&header(last)), expected, "{last:02X}");
    }
}

#[test]
fn a_larger_count_is_refused() {
    let mut longer = 0;
    for atom in integers() {
        for larger in in_larger_counts(&atom) {
            let value =
                |bytes: &[u8]| read_atom(bytes, 0, u64::MAX).unwrap().atom.nucleus.integer().unwrap().to_string();
            assert_eq!(value(&larger), value(&atom));
            assert_refused(&larger, NOT_SHORTEST);
            longer += 1;
        }
    }
    assert!(longer > 1000);
}

#[test]
fn a_wider_float_is_refused() {
    for value in floats() {
        let shortest = written(|out| write_f64(out, value));
        let single = value as f32;
        if f64::from(single) == value && shortest.len() < 5 {
            assert_refused(&float_of_4(single), NOT_SHORTEST);
        }
        if shortest.len() < 9 {
            assert_refused(&float_of_8(value), NOT_SHORTEST);
        }
    }
}

/// Every pattern of two bytes is accepted, and in four and eight bytes only if it is a NaN.
#[test]
fn every_binary16_has_two_bytes() {
    for pattern in 0..=u16::MAX {
        let [low, high] = pattern.to_le_bytes();
        let atom = [0x61, low, high];
        assert_eq!(refused(&atom), None, "{pattern:04X}");
        let Nucleus::Float(Float::F32(value), _) = read_atom(&atom, 0, 2).unwrap().atom.nucleus else {
            panic!("two bytes are read as an f32");
        };
        let expected = if value.is_nan() { None } else { Some((NOT_SHORTEST, 0)) };
        assert_eq!(refused(&float_of_4(value)), expected, "{pattern:04X} in 4 bytes");
        assert_eq!(refused(&float_of_8(value.into())), expected, "{pattern:04X} in 8 bytes");
    }
}

#[test]
fn values_that_look_alike() {
    // Int 200 needs two bytes, UInt 200 one.
    assert_eq!(refused(&[0x21, 0xC8, 0x00]), None);
    assert_eq!(refused(&[0x40, 0xC8]), None);
    assert_refused(&[0x41, 0xC8, 0x00], NOT_SHORTEST);
    assert_refused(&[0x22, 0xC8, 0x00, 0x00], NOT_SHORTEST);
    // -56 in one byte, and in two.
    assert_eq!(refused(&[0x20, 0xC8]), None);
    assert_refused(&[0x21, 0xC8, 0xFF], NOT_SHORTEST);
    // Both zeros, both infinities and the smallest binary16, in two bytes and in more.
    for value in [0.0, -0.0, f64::INFINITY, f64::NEG_INFINITY, 2_f64.powi(-24), -2_f64.powi(-24)] {
        assert_eq!(written(|out| write_f64(out, value)).len(), 3);
        assert_refused(&float_of_4(value as f32), NOT_SHORTEST);
        assert_refused(&float_of_8(value), NOT_SHORTEST);
    }
    // The number 5 as a float, and as an integer of each kind.
    assert_eq!(refused(&[0x61, 0x00, 0x45, 0x20, 0x05, 0x40, 0x05]), None);
}

#[test]
fn other_refusals_of_an_atom_come_first() {
    // A special that is unknown, and its header too long.
    assert_refused(&[0x17, 0x00], 3);
    assert_refused(&[0x10, 0x01], 3);
    // A count that is not allowed, and the header too long.
    for atom in [&[0x34, 0x00][..], &[0x54, 0x00], &[0x70, 0x00], &[0x50, 0x01], &[0x60], &[0x6F], &[0x24]] {
        assert_refused(atom, 6);
    }
    assert_eq!(check(&[0x00, 0x54, 0x00]).unwrap_err().refusal, Refusal::UnsupportedByteCount(Kind::UInt, 5));
    assert_eq!(check(&[0x00, 0x17, 0x00]).unwrap_err().refusal, Refusal::UnknownSpecial(7));
    // What is cut is refused by 4, however long it is otherwise. Behind it there is nothing.
    for atom in
        [&[0x50][..], &[0x50, 0x80], &[0x50, 0x00], &[0x43, 5, 0, 0], &[0xF2, 0x00, b'a'], &[0x63, 0, 0, 0], &[0xE1]]
    {
        assert_eq!(refused(atom), Some((4, 0)), "{atom:02X?}");
        assert_eq!(refused(&[&[0x40, 0x05], atom].concat()), Some((4, 2)), "{atom:02X?}");
    }
    // A string longer than anything: no memory is asked for.
    assert_eq!(refused(&[0xFF, 0xFF, 0xFF, 0xFF, 0xFF, 0xFF, 0xFF, 0xFF, 0xFF, 0x0F]), Some((4, 0)));
    assert_eq!(refused(&[0xFF, 0xFF, 0xFF, 0xFF, 0xFF, 0xFF, 0xFF, 0xFF, 0xFF, 0xFF]), Some((4, 0)));
}

#[test]
fn the_first_bad_atom_decides() {
    let (longer, unknown, unsupported, cut) = ([0x41, 0x05, 0x00], [0x07], [0x24], [0x41]);
    assert_eq!(refused(&[&longer[..], &unknown, &unsupported, &cut].concat()), Some((NOT_SHORTEST, 0)));
    assert_eq!(refused(&[&unknown[..], &longer, &cut].concat()), Some((3, 0)));
    assert_eq!(refused(&[&unsupported[..], &longer, &cut].concat()), Some((6, 0)));
    assert_eq!(refused(&[&longer[..], &cut].concat()), Some((NOT_SHORTEST, 0)));
}

/// One bad atom at each place of a list of atoms of all kinds.
#[test]
fn the_place_is_that_of_the_bad_atom() {
    let atoms = [specials(), strings(), headers(), nans()].concat();
    for at in 0..=atoms.len() {
        let (before, after) = (atoms[..at].concat(), atoms[at..].concat());
        let list = [&before, &[0x41, 0x05, 0x00][..], &after].concat();
        assert_eq!(refused(&list), Some((NOT_SHORTEST, before.len())));
        assert_eq!(refused(&[&before, &[0x41][..]].concat()), Some((4, before.len())));
    }
}

/// The tally refuses a source of more than 16,777,216 bytes; the check takes any.
#[test]
fn a_source_has_any_length() {
    let mut source = vec![0; 16_777_217];
    assert_eq!(tally(&source).unwrap_err().refusal, Refusal::TooLong);
    assert_eq!(refused(&source), None);
    *source.last_mut().unwrap() = 0x07;
    assert_eq!(refused(&source), Some((3, 16_777_216)));
}

/// The source as the writers write what it means, atom by atom, each read with the largest budget.
fn expected(source: &[u8]) -> Option<(u64, usize)> {
    let mut place = 0;
    while place < source.len() {
        let atom = match read_atom(source, place, u64::MAX) {
            Ok(read) => read.atom,
            Err(stopped) => return Some((stopped.refusal.number(), stopped.start)),
        };
        let body = &source[atom.places.body_range()];
        let again = match atom.nucleus {
            Nucleus::Integer(value) => written(|out| write_integer(out, value)),
            // No writer writes a NaN of two bytes.
            Nucleus::Float(Float::F32(value), _) if value.is_nan() && body.len() == 2 => [&[0x61], body].concat(),
            Nucleus::Float(value, _) => written(|out| write_float(out, value)),
            Nucleus::Bytes(string) => written(|out| write_bytes(out, string)),
            _ => written(|out| write_atom_header(out, atom.kind, atom.arg)),
        };
        if source[atom.places.range()] != again {
            return Some((NOT_SHORTEST, place));
        }
        place = atom.places.after;
    }
    None
}

#[test]
fn all_sources_of_two_bytes() {
    for bytes in 0..=u16::MAX {
        let source = bytes.to_be_bytes();
        assert_eq!(refused(&source), expected(&source), "{source:02X?}");
    }
}

/// Bytes at random, and atoms of all kinds of which one byte was changed.
#[test]
fn sources_at_random() {
    let atoms = atoms();
    let mut state = 1_u64;
    let mut draw = |bound: usize| {
        // Knuth's linear congruence; its high bits are the better ones.
        state = state.wrapping_mul(6364136223846793005).wrapping_add(1442695040888963407);
        (state >> 33) as usize % bound
    };
    for turn in 0..100_000 {
        let mut source: Vec<u8> = match turn % 2 {
            0 => (0..draw(24)).map(|_| draw(256) as u8).collect(),
            _ => (0..1 + draw(4)).flat_map(|_| atoms[draw(atoms.len())].iter().copied().take(40)).collect(),
        };
        if turn % 4 == 1 {
            let at = draw(source.len());
            source[at] = draw(256) as u8;
        }
        assert_eq!(refused(&source), expected(&source), "{source:02X?}");
    }
}
