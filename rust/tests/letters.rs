//! The letters that the tally counts: each edge of the pairs that count as none, such a pair at every place of strings
//! around the lengths of the parts in which letters are counted, and text with marks in and after its letters.
use dimewagon::*;

/// The letters of a file of one string.
fn letters(string: &[u8]) -> u64 {
    let mut out = vec![0; string.len() + 16];
    let count = write_bytes(&mut out, string).unwrap();
    tally(&out[..count]).unwrap().letters
}

/// Document 02's K2, byte by byte: what a byte counts, by itself and what follows it in its string.
fn expected(string: &[u8]) -> u64 {
    let counts = |at: usize| match &string[at..] {
        [0xCC, 0x80..=0xBF, ..] | [0xCD, 0x80..=0xAF, ..] => 0,
        [0x80..=0xBF, ..] => 0,
        _ => 1,
    };
    (0..string.len()).map(counts).sum()
}

#[test]
fn every_pair_of_bytes_by_itself_and_among_letters() {
    for pair in 0..=u16::MAX {
        let [a, b] = pair.to_be_bytes();
        assert_eq!(letters(&[a, b]), expected(&[a, b]), "{a:02X} {b:02X}");
        let long = [b"abcdefghijklmno", &[a, b][..], b"pq"].concat();
        assert_eq!(letters(&long), expected(&long), "{a:02X} {b:02X} among letters");
    }
}

#[test]
fn the_edges_that_are_named() {
    assert_eq!(letters(&[0xCC, 0xCC, 0x80]), 1);
    assert_eq!(letters(&[0xCD, 0xB0]), 1);
    assert_eq!(letters(&[0xCC]), 1);
    assert_eq!(letters(&[0x65, 0xCC, 0x81]), 1);
}

/// Pairs that are marks, and ones that are not.
const PAIRS: [[u8; 2]; 8] = [
    [0xCC, 0x80],
    [0xCC, 0xBF],
    [0xCD, 0x80],
    [0xCD, 0xAF],
    [0xCD, 0xB0],
    [0xCC, 0x7F],
    [0xCC, 0xC0],
    [0xCC, 0xCC],
];

/// Strings of letters with one pair at each place, whole, and cut after the pair's first byte.
#[test]
fn a_pair_at_every_place() {
    for length in (0..40).chain(188..200).chain(380..390).chain(572..582).chain([768, 1_000]) {
        for at in 0..length {
            for pair in PAIRS {
                let mut string = vec![b'e'; length];
                let end = length.min(at + 2);
                string[at..end].copy_from_slice(&pair[..end - at]);
                assert_eq!(letters(&string), expected(&string), "{pair:02X?} at {at} of {length}");
                let cut = &string[..=at];
                assert_eq!(letters(cut), expected(cut), "{pair:02X?} cut at {at}");
            }
        }
    }
}

/// A string that ends with a pair's first byte, before an atom that begins with what would be its second.
#[test]
fn a_string_ends_with_its_body() {
    for length in [1, 2, 15, 16, 17, 191, 192, 193, 384, 385] {
        for lead in [0xCC, 0xCD] {
            for second in [0x80, 0x8F, 0xA0, 0xAF] {
                let mut string = vec![b'e'; length];
                string[length - 1] = lead;
                let mut file = vec![0; length + 16];
                let count = write_bytes(&mut file, &string).unwrap();
                file[count] = second;
                let tally = tally(&file[..=count]).unwrap();
                assert_eq!((tally.atoms, tally.letters), (2, length as u64), "{lead:02X}, then {second:02X}");
            }
        }
    }
}

/// Article 1 of the Universal Declaration of Human Rights, with marks in their letters and after them.
const COMPOSED: &str = "Tất cả mọi người sinh ra đều được tự do và bình đẳng về nhân phẩm và quyền. Mọi con người đều \
    được tạo hóa ban cho lý trí và lương tâm và cần phải đối xử với nhau trong tình bằng hữu.";
const DECOMPOSED: &str = "Ta\u{302}\u{301}t ca\u{309} mo\u{323}i ngu\u{31b}o\u{31b}\u{300}i sinh ra đe\u{302}\u{300}u \
    đu\u{31b}o\u{31b}\u{323}c tu\u{31b}\u{323} do va\u{300} bi\u{300}nh đa\u{306}\u{309}ng \
    ve\u{302}\u{300} nha\u{302}n pha\u{302}\u{309}m va\u{300} quye\u{302}\u{300}n. Mo\u{323}i con \
    ngu\u{31b}o\u{31b}\u{300}i đe\u{302}\u{300}u đu\u{31b}o\u{31b}\u{323}c ta\u{323}o ho\u{301}a ban \
    cho ly\u{301} tri\u{301} va\u{300} lu\u{31b}o\u{31b}ng ta\u{302}m va\u{300} ca\u{302}\u{300}n \
    pha\u{309}i đo\u{302}\u{301}i xu\u{31b}\u{309} vo\u{31b}\u{301}i nhau trong ti\u{300}nh \
    ba\u{306}\u{300}ng hu\u{31b}\u{303}u.";

#[test]
fn text_has_as_many_letters_composed_and_decomposed() {
    assert_ne!(COMPOSED.chars().count(), DECOMPOSED.chars().count());
    assert_eq!(letters(COMPOSED.as_bytes()), COMPOSED.chars().count() as u64);
    assert_eq!(letters(DECOMPOSED.as_bytes()), COMPOSED.chars().count() as u64);
    for word in COMPOSED.split(' ').zip(DECOMPOSED.split(' ')) {
        assert_eq!(letters(word.0.as_bytes()), letters(word.1.as_bytes()), "{}", word.0);
    }
}

/// The marks of Japanese are U+3099 and U+309A, which are not among those that count as none.
#[test]
fn other_marks_are_letters() {
    assert_eq!(letters("がぎぐげご".as_bytes()), 5);
    assert_eq!(letters("か\u{3099}き\u{3099}く\u{3099}け\u{3099}こ\u{3099}".as_bytes()), 10);
}
