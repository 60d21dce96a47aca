//! Strings of every length at which the library's copy goes another way: each is written and read back lent and copied,
//! and the bytes behind it in the lent buffer keep their value.
use dimewagon::*;

/// Up to past 64 bytes, past the lengths of a header's bytes, and past the block's size and its halves.
fn lengths() -> impl Iterator<Item = usize> {
    (0..=130).chain(2_040..=2_056).chain(4_090..=4_102).chain(8_186..=8_200).chain([20_000])
}

/// What a lent buffer holds before; no text has it.
const KEPT: u8 = 0xFE;

/// A text of so many bytes in which no byte is that of its neighbours.
fn text(length: usize) -> Vec<u8> {
    (0..length).map(|i| (i % 251) as u8).collect()
}

#[test]
fn strings_are_written_and_read_back() -> Result<(), Stopped> {
    for length in lengths() {
        let string = text(length);
        let mut out = vec![KEPT; length + 16];
        let count = write_bytes(&mut out, &string).unwrap();
        assert!(out[count..].iter().all(|&byte| byte == KEPT), "length {length}");

        let lent = read_atom(&out, 0, length as u64)?;
        assert_eq!((lent.place, lent.budget, lent.atom.nucleus), (count, 0, Nucleus::Bytes(&string)));

        let mut scratch = vec![KEPT; length + 16];
        let copied = read_atom_copied(&out, 0, length as u64, &mut scratch)?;
        assert_eq!(copied.atom.nucleus, Nucleus::Bytes(&string));
        assert_eq!(scratch[..length], string, "length {length}");
        assert!(scratch[length..].iter().all(|&byte| byte == KEPT), "length {length}");
    }
    Ok(())
}

#[test]
fn a_string_without_room_is_not_begun() {
    for length in lengths() {
        let string = text(length);
        let needed = write_bytes(&mut vec![0; length + 16], &string).unwrap();
        let mut out = vec![KEPT; needed - 1];
        assert_eq!(write_bytes(&mut out, &string).unwrap_err().number(), 9, "length {length}");
        assert!(out.iter().all(|&byte| byte == KEPT), "length {length}");
        assert_eq!(write_bytes(&mut vec![0; needed], &string), Ok(needed));
    }
}
