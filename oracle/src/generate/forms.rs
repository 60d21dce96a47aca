//! Atoms in shortest form, as the original's writers write them, and the same atoms in longer forms.

use super::atoms::{charge, put_body, put_header, string_length, FLOAT_COUNTS, INTEGER_COUNTS};
use super::edges;
use super::random::Random;
use crate::answer::write;
use crate::format::read_atom_header;
use crate::wire::Request;

/// An atom by its parts.
struct Parts {
    kind: u8,
    arg: u64,
    body: Vec<u8>,
}

impl Parts {
    /// The parts of an atom that was written.
    fn of(atom: &[u8]) -> Self {
        let mut body = atom;
        let (kind, arg) = read_atom_header(&mut body).expect("a written atom has a header");
        Self { kind: kind as u8, arg, body: body.to_vec() }
    }

    const fn charge(&self) -> u64 {
        charge(self.kind, self.arg)
    }
}

/// Appends an atom in shortest form; answers its charge.
pub fn put_shortest(random: &mut Random, bytes: &mut Vec<u8>) -> u64 {
    let start = bytes.len();
    put_value(random, bytes);
    Parts::of(&bytes[start..]).charge()
}

/// Appends an atom whose header or number or both take more bytes than the fewest; now and then the number was changed
/// by that, or had no longer form. Answers its charge.
pub fn put_longer(random: &mut Random, bytes: &mut Vec<u8>) -> u64 {
    let mut atom = Vec::new();
    put_value(random, &mut atom);
    let mut parts = Parts::of(&atom);
    let form = random.below(8);
    let widened = form > 0 && widen(random, &mut parts);
    if widened && form > 1 {
        put_header(bytes, parts.kind, parts.arg, 0);
    } else {
        put_long_header(random, bytes, parts.kind, parts.arg);
    }
    bytes.extend(&parts.body);
    parts.charge()
}

/// Appends a special or a number that is mostly unknown, often behind a longer header; answers its charge.
#[allow(clippy::cast_possible_truncation)]
pub fn put_unknown(random: &mut Random, bytes: &mut Vec<u8>) -> u64 {
    let kind = random.below(4) as u8;
    let arg = match kind {
        0 => edges::word(random).saturating_add(random.below(8)),
        _ if random.once_in(2) => random.below(20),
        _ => edges::word(random),
    };
    if random.once_in(2) {
        put_header(bytes, kind, arg, 0);
    } else {
        put_long_header(random, bytes, kind, arg);
    }
    put_body(random, bytes, kind, arg);
    charge(kind, arg)
}

/// Appends a value by its writer; or a NaN of two bytes, which none writes.
#[allow(clippy::cast_possible_truncation)]
fn put_value(random: &mut Random, bytes: &mut Vec<u8>) {
    let mut text = Vec::new();
    let request = match random.below(16) {
        0..=5 => Request::IntegerWriteTo(edges::integer(random)),
        6..=8 => Request::FloatWriteTo(edges::float(random)),
        9 => Request::WriteF32(edges::widened(edges::half(random))),
        10 | 11 => {
            let length = string_length(random);
            put_body(random, &mut text, 7, length);
            Request::WriteBytes(&text)
        }
        12 => Request::WriteSpecial(random.below(7) as u8),
        13 | 14 => Request::WriteAtomHeader(4 + random.below(3) as u8, edges::word(random)),
        _ => {
            let nan = (0x7c01 + random.below(0x3ff) as u16) | random.word() as u16 & 0x8000;
            bytes.push(0x61);
            return bytes.extend(nan.to_le_bytes());
        }
    };
    write(bytes, &request).expect("a Vec takes every byte");
}

/// Appends a header with more bytes than the fewest, as far as ten allow. A tenth byte often has bits above the
/// argument, which readers drop.
#[allow(clippy::cast_possible_truncation)]
fn put_long_header(random: &mut Random, bytes: &mut Vec<u8>, kind: u8, arg: u64) {
    let start = bytes.len();
    let extra = *random.pick(&[1, 1, 1, 2, 3, 4, 5, 6, 7, 8, 9, 9, 9]);
    put_header(bytes, kind, arg, extra);
    if bytes.len() - start == 10 && random.once_in(2) {
        bytes[start + 9] |= (1 + random.below(15) as u8) << 4;
    }
}

/// Stores a number in more bytes, mostly a step more; says whether there is such a form.
fn widen(random: &mut Random, parts: &mut Parts) -> bool {
    let counts: &[u64] = match parts.kind {
        1 | 2 => &INTEGER_COUNTS,
        3 => &FLOAT_COUNTS,
        _ => return false,
    };
    let wider = &counts[1 + counts.iter().position(|count| *count == parts.arg + 1).expect("a writer's count")..];
    if wider.is_empty() {
        return false;
    }
    let count = if random.once_in(4) { *random.pick(wider) } else { wider[0] };
    parts.arg = count - 1;
    if parts.kind == 3 {
        widen_float(&mut parts.body, count);
    } else {
        widen_integer(random, parts.kind, &mut parts.body, count);
    }
    if random.once_in(8) {
        let at = random.index(parts.body.len());
        parts.body[at] ^= 1 << random.below(8);
    }
    true
}

/// Fills up with the number's sign; now and then with the other, which makes another number of it.
#[allow(clippy::cast_possible_truncation)]
fn widen_integer(random: &mut Random, kind: u8, body: &mut Vec<u8>, count: u64) {
    let negative = kind == 1 && body.last().is_some_and(|last| *last >= 0x80);
    let sign = if negative != random.once_in(6) { 0xff } else { 0x00 };
    body.resize(count as usize, sign);
}

/// Stores the same float in 4 or 8 bytes.
fn widen_float(body: &mut Vec<u8>, count: u64) {
    let single = match **body {
        [low, high] => edges::widened(u16::from_le_bytes([low, high])),
        [a, b, c, d] => u32::from_le_bytes([a, b, c, d]),
        _ => unreachable!("a float of 8 bytes has no wider form"),
    };
    *body = match count {
        4 => single.to_le_bytes().to_vec(),
        _ => f64::from(f32::from_bits(single)).to_le_bytes().to_vec(),
    };
}
