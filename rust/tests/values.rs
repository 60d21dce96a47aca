//! Values through the safe interface, by examples of document 01.
use std::error::Error;

use dimewagon::*;

#[test]
fn atoms_stop_at_the_first_refusal() {
    let mut atoms = Atoms::new(&[0x40, 0x05, 0x24, 0x40, 0x05]);
    assert_eq!(atoms.next().unwrap().unwrap().nucleus, Nucleus::Integer(Integer::U8(5)));
    let stopped = atoms.next().unwrap().unwrap_err();
    assert_eq!((stopped.refusal, stopped.start, stopped.atoms), (Refusal::UnsupportedByteCount(Kind::Int, 5), 2, 1));
    assert_eq!(stopped.to_string(), "refusal 6 at 2: Int of 5 bytes");
    assert_eq!((atoms.next(), atoms.next(), atoms.size_hint()), (None, None, (0, Some(0))));
}

#[test]
fn places_of_a_file_count_its_signature() {
    let file = b"Pot\x01\xE3n\xC3\xA9\x41\x2C";
    let (version, mut atoms) = Atoms::of_file(file).unwrap();
    assert_eq!((version, atoms.place(), atoms.size_hint()), (1, 4, (1, Some(6))));
    assert_eq!(atoms.next().unwrap().unwrap().nucleus.bytes(), Some("né".as_bytes()));
    let stopped = atoms.next().unwrap().unwrap_err();
    assert_eq!((stopped.refusal, stopped.start, stopped.place, stopped.atoms), (Refusal::Eof, 8, 10, 1));
    assert_eq!(Atoms::of_file(b"Pox\x01").unwrap_err().to_string(), "refusal 1 at 0: incompatible version");
    assert_eq!(read_atom(&[], usize::MAX, 9).unwrap_err().start, 0);
}

#[test]
fn errors_of_each_function_become_one() {
    fn load(source: &[u8]) -> Result<u16, Box<dyn Error>> {
        tally(source)?;
        let integer = read_atom(source, 0, u64::MAX)?.atom.nucleus.integer().ok_or("no integer")?;
        Ok(u16::try_from(integer)?)
    }
    assert_eq!(load(&[0x41, 0x2C, 0x01]).unwrap(), 300);
    assert_eq!(load(&[0x41, 0x2C]).unwrap_err().to_string(), "refusal 4 at 0: the input ends");
    assert_eq!(load(&[0x42, 0, 0, 1]).unwrap_err().to_string(), "refusal 8: the cast would lose data");
    let stopped = read_atom(&[0x07], 0, 0).unwrap_err();
    assert_eq!(Refused::from(stopped), tally(&[0x07]).unwrap_err());
    assert_eq!(load(&vec![0; 16_777_217]).unwrap_err().to_string(), "refusal 10: the input is too long");
}

#[test]
fn strings_are_lent_or_copied() {
    let source = [0xE2, 0x61, 0x62];
    let lent = read_atom(&source, 0, 2).unwrap().atom;
    assert_eq!(lent.nucleus.bytes().unwrap().as_ptr(), source[1..].as_ptr());
    let mut scratch = [0; 4];
    let copied = read_atom_copied(&source, 0, 2, &mut scratch).unwrap().atom;
    assert_eq!(copied, lent);
    assert_eq!(scratch, [0x61, 0x62, 0, 0]);
    assert_eq!(read_atom_copied(&source, 0, 2, &mut [0; 1]).unwrap_err().refusal.number(), 9);
}

#[test]
fn casts_go_by_variant() {
    assert_eq!(Integer::I16(5).as_u8(), Err(Refusal::ImpreciseCastWouldLoseData));
    assert_eq!(Integer::U8(200).as_i16(), Ok(200));
    assert_eq!(Integer::I8(-1).as_i128(), Ok(-1));
    assert_eq!(Integer::I32(-(1 << 24)).as_f32(), Ok(-16777216.0));
    assert!(Integer::I32(1 << 24).as_f32().is_err());
    assert_eq!(Float::F64(1e300).as_integer(), Ok(Integer::I64(i64::MAX)));
    assert!(Float::F64(2f64.powi(-52)).as_integer().is_err());
    assert_eq!(Float::F32(f32::from_bits(0xFF80_0001)).as_f64().to_bits(), 0xFFF8_0000_2000_0000);
    assert!(Float::F64(0.1).as_f32().is_err());
}

#[test]
fn every_integer_comes_back() {
    let mut out = [0; 17];
    for value in [i128::MIN, i64::MIN.into(), -129, -1, 0, 1, 255, 1 << 23, i128::MAX] {
        let count = write_integer(&mut out, Integer::I128(value)).unwrap();
        let read = read_atom(&out[..count], 0, 16).unwrap().atom;
        assert_eq!(read.nucleus.integer().unwrap().as_i128(), Ok(value));
    }
}

#[test]
fn floats_are_equal_across_widths() {
    assert_eq!(Float::F32(0.1), Float::F64(0.1_f32.into()));
    assert_ne!(Float::F32(0.1), Float::F64(0.1));
    assert_ne!(Float::F32(f32::NAN), Float::F32(f32::NAN));
    assert_eq!((f64::from(Float::F32(1.5)), f32::try_from(Float::F64(1.5))), (1.5, Ok(1.5)));
    assert_eq!(Integer::try_from(Float::F32(-7.0)), Ok(Integer::I8(-7)));
}

#[test]
fn specials_come_back() {
    use Special::*;
    let nuclei = [
        (None, Nucleus::None),
        (Unit, Nucleus::Unit),
        (False, Nucleus::Boolean(false)),
        (True, Nucleus::Boolean(true)),
        (Named, Nucleus::Named),
        (DynamicMap, Nucleus::DynamicMap),
        (DynamicEnd, Nucleus::DynamicEnd),
    ];
    for (special, nucleus) in nuclei {
        let mut out = [9; 1];
        assert_eq!(write_special(&mut out, special), Ok(1));
        assert_eq!(read_atom(&out, 0, 0).unwrap().atom.nucleus, nucleus);
    }
}
