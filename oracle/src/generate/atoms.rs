//! Atoms as bytes, good ones and ones that a reader refuses.

use super::edges;
use super::random::Random;

/// The byte counts that numbers have.
pub const INTEGER_COUNTS: [u64; 7] = [1, 2, 3, 4, 6, 8, 16];
pub const FLOAT_COUNTS: [u64; 3] = [2, 4, 8];

/// How many bytes of a string the library counts the letters of at a time.
const PART: u64 = 192;

/// The edges of what is a letter, and of the pairs that are none.
const AROUND_MARKS: [u8; 12] = [0x65, 0x7f, 0x80, 0xaf, 0xb0, 0xbf, 0xc0, 0xcb, 0xcc, 0xcc, 0xcd, 0xce];

/// Appends a header with `extra` bytes more than the fewest, as far as ten bytes allow.
#[allow(clippy::cast_possible_truncation)]
pub fn put_header(bytes: &mut Vec<u8>, kind: u8, arg: u64, extra: usize) {
    let start = bytes.len();
    bytes.push(kind << 5 | (arg & 15) as u8);
    let mut rest = arg >> 4;
    let mut more = 0x10;
    let mut spare = extra;
    while (rest > 0 || spare > 0) && bytes.len() - start < 10 {
        *bytes.last_mut().expect("the first byte stands") |= more;
        if rest == 0 {
            spare -= 1;
        }
        bytes.push((rest & 0x7f) as u8);
        rest >>= 7;
        more = 0x80;
    }
}

/// What an atom of these bytes costs; 0 where a reader doesn't charge.
pub const fn charge(kind: u8, arg: u64) -> u64 {
    match kind {
        1..=3 => match arg.wrapping_add(1) {
            3 => 4,
            6 => 8,
            count => count,
        },
        7 => arg,
        _ => 0,
    }
}

/// Appends an atom that a reader takes, with a header of the fewest bytes; answers its charge.
pub fn put_good(random: &mut Random, bytes: &mut Vec<u8>) -> u64 {
    let kind = random.below(8) as u8;
    let arg = match kind {
        0 => random.below(7),
        1 | 2 => random.pick(&INTEGER_COUNTS) - 1,
        3 => random.pick(&FLOAT_COUNTS) - 1,
        7 => string_length(random),
        _ => random.word() >> (20 + random.below(44)),
    };
    put_header(bytes, kind, arg, 0);
    put_body(random, bytes, kind, arg);
    charge(kind, arg)
}

/// Appends an atom that may be refused: any count, any special, any length of header. Answers its charge.
pub fn put_any(random: &mut Random, bytes: &mut Vec<u8>) -> u64 {
    let kind = random.below(8) as u8;
    let arg = match random.below(8) {
        0 => edges::word(random),
        1 => random.below(20),
        _ => likely_arg(random, kind),
    };
    let extra = if random.once_in(4) { random.index(10) } else { 0 };
    put_header(bytes, kind, arg, extra);
    put_body(random, bytes, kind, arg);
    charge(kind, arg)
}

fn likely_arg(random: &mut Random, kind: u8) -> u64 {
    match kind {
        0 => random.below(9),
        1 | 2 => random.pick(&INTEGER_COUNTS) - 1,
        3 => random.pick(&FLOAT_COUNTS) - 1,
        7 if random.once_in(64) => 2040 + random.below(20),
        7 => string_length(random),
        _ => edges::word(random),
    }
}

/// The length of a string: short, or now and then around a multiple of 192, at which letters are counted in parts.
pub fn string_length(random: &mut Random) -> u64 {
    if random.once_in(24) {
        PART * (1 + random.below(3)) - 3 + random.below(6)
    } else {
        random.below(24)
    }
}

/// Appends a body as long as the header says, or some bytes if that is long.
pub fn put_body(random: &mut Random, bytes: &mut Vec<u8>, kind: u8, arg: u64) {
    match kind {
        1..=3 => put_number(random, bytes, kind, arg.wrapping_add(1)),
        7 => put_string(random, bytes, arg),
        _ => {}
    }
}

/// Appends the bytes of a number: of a float, often a pattern at an edge.
pub fn put_number(random: &mut Random, bytes: &mut Vec<u8>, kind: u8, count: u64) {
    match (kind, count) {
        (3, 2) => bytes.extend(edges::half(random).to_le_bytes()),
        (3, 4) => bytes.extend(edges::single(random).to_le_bytes()),
        (3, 8) => bytes.extend(edges::double(random).to_le_bytes()),
        _ => put_edged(random, bytes, count),
    }
}

/// Appends a string's bytes: any, or those around marks, or text in which one mark may begin.
fn put_string(random: &mut Random, bytes: &mut Vec<u8>, count: u64) {
    match random.below(3) {
        1 if count <= 4096 => bytes.extend((0..count).map(|_| *random.pick(&AROUND_MARKS))),
        2 if count <= 4096 => put_marked(random, bytes, count),
        _ => put_edged(random, bytes, count),
    }
}

/// Appends text with one byte that a mark may begin with, often at the end of a part or of the text.
#[allow(clippy::cast_possible_truncation)]
fn put_marked(random: &mut Random, bytes: &mut Vec<u8>, count: u64) {
    let start = bytes.len();
    bytes.extend((0..count).map(|_| *random.pick(&[0x65, 0xc3, 0xa9])));
    let text = &mut bytes[start..];
    let at = match random.below(3) {
        0 => PART * (1 + random.below(3)) - 2 + random.below(3),
        1 => count.wrapping_sub(1 + random.below(2)),
        _ => random.below(count.max(1)),
    } as usize;
    if let Some(first) = text.get_mut(at) {
        *first = *random.pick(&[0xcc, 0xcd]);
    }
    if let Some(second) = text.get_mut(at.saturating_add(1)) {
        *second = *random.pick(&AROUND_MARKS);
    }
}

/// Appends bytes, some of them at the edges of a byte; only a few if `count` is large.
fn put_edged(random: &mut Random, bytes: &mut Vec<u8>, count: u64) {
    let count = if count > 4096 { random.below(24) } else { count };
    for _ in 0..count {
        let byte = random.byte();
        bytes.push(if random.once_in(6) { *random.pick(&[0x00, 0x7f, 0x80, 0xff]) } else { byte });
    }
}
