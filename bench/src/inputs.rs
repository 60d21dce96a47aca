//! The files that are read: made here, by the original's writers, from fixed seeds.

use std::io;

use crate::format::{
    write_atom_header, write_bool, write_bytes, write_f32, write_f64, write_i128, write_i16, write_i32, write_i8,
    write_none, write_u128, write_u16, write_u32, write_u64, write_u8, write_unit, Kind,
};

/// A generator of numbers (SplitMix64), so that every run has the same inputs.
pub struct Draw(pub u64);

impl Draw {
    pub fn next(&mut self) -> u64 {
        self.0 = self.0.wrapping_add(0x9E37_79B9_7F4A_7C15);
        let mut z = self.0;
        z = (z ^ (z >> 30)).wrapping_mul(0xBF58_476D_1CE4_E5B9);
        z = (z ^ (z >> 27)).wrapping_mul(0x94D0_49BB_1331_11EB);
        z ^ (z >> 31)
    }

    pub fn below(&mut self, bound: u64) -> u64 {
        self.next() % bound
    }
}

/// An equal mix of specials, headers alone, integers of 1 to 4 bytes, floats of 2 bytes and strings of up to 12.
pub fn small_atoms(count: usize) -> io::Result<Vec<u8>> {
    let mut draw = Draw(1);
    let mut out = Vec::new();
    for _ in 0..count {
        let value = draw.next();
        match draw.below(12) {
            0 => write_none(&mut out)?,
            1 => write_unit(&mut out)?,
            2 => write_bool(&mut out, value % 2 == 0)?,
            3 => write_atom_header(&mut out, Kind::Sequence, value % 40)?,
            4 => write_atom_header(&mut out, Kind::Symbol, value % 400)?,
            5 => write_i8(&mut out, value as i8)?,
            6 => write_i16(&mut out, value as i16)?,
            7 => write_i32(&mut out, value as i32)?,
            8 => write_u8(&mut out, value as u8)?,
            9 => write_u16(&mut out, value as u16)?,
            10 => write_f32(&mut out, (value % 1000) as f32)?,
            _ => write_bytes(&mut out, &TEXT.as_bytes()[..(value % 13) as usize])?,
        };
    }
    Ok(out)
}

const TEXT: &str = "Donaudampfschiffahrtsgesellschaft";

/// Strings of about 1 KB, with letters of one and two bytes.
pub fn long_strings(count: usize) -> io::Result<Vec<u8>> {
    strings_of("Überflüssige Bürokratie häuft Papier; ", count)
}

/// Strings of about 1 KB of one text over and over, cut anywhere.
fn strings_of(text: &str, count: usize) -> io::Result<Vec<u8>> {
    let mut draw = Draw(2);
    let text = text.repeat(40);
    let mut out = Vec::new();
    for _ in 0..count {
        let length = 900 + draw.below(250) as usize;
        write_bytes(&mut out, &text.as_bytes()[..length])?;
    }
    Ok(out)
}

/// Article 1 of the Universal Declaration of Human Rights, in three languages: in ASCII, with marks as parts of their
/// letters, and with marks after them.
const ENGLISH: &str = "All human beings are born free and equal in dignity and rights. They are endowed with reason \
    and conscience and should act towards one another in a spirit of brotherhood. ";
const FRENCH: &str = "Tous les êtres humains naissent libres et égaux en dignité et en droits. Ils sont doués de \
    raison et de conscience et doivent agir les uns envers les autres dans un esprit de fraternité. ";
const VIETNAMESE: &str = "Ta\u{302}\u{301}t ca\u{309} mo\u{323}i ngu\u{31b}o\u{31b}\u{300}i sinh ra đe\u{302}\u{300}u \
    đu\u{31b}o\u{31b}\u{323}c tu\u{31b}\u{323} do va\u{300} bi\u{300}nh đa\u{306}\u{309}ng \
    ve\u{302}\u{300} nha\u{302}n pha\u{302}\u{309}m va\u{300} quye\u{302}\u{300}n. Mo\u{323}i con \
    ngu\u{31b}o\u{31b}\u{300}i đe\u{302}\u{300}u đu\u{31b}o\u{31b}\u{323}c ta\u{323}o ho\u{301}a \
    ban cho ly\u{301} tri\u{301} va\u{300} lu\u{31b}o\u{31b}ng ta\u{302}m va\u{300} \
    ca\u{302}\u{300}n pha\u{309}i đo\u{302}\u{301}i xu\u{31b}\u{309} vo\u{31b}\u{301}i nhau trong \
    ti\u{300}nh ba\u{306}\u{300}ng hu\u{31b}\u{303}u. ";

/// Strings of about 1 KB of each text.
pub fn texts(count: usize) -> io::Result<Vec<(&'static str, Vec<u8>)>> {
    [("ASCII strings", ENGLISH), ("French strings", FRENCH), ("Vietnamese strings, decomposed", VIETNAMESE)]
        .into_iter()
        .map(|(name, text)| Ok((name, strings_of(text, count)?)))
        .collect()
}

/// Integers of 16 bytes, of both kinds.
pub fn wide_integers(count: usize) -> io::Result<Vec<u8>> {
    let mut draw = Draw(3);
    let mut out = Vec::new();
    for _ in 0..count {
        let value = (u128::from(draw.next() | 1 << 63) << 64) | u128::from(draw.next());
        match draw.below(2) {
            0 => write_i128(&mut out, (value >> 1) as i128)?,
            _ => write_u128(&mut out, value)?,
        };
    }
    Ok(out)
}

/// Integers of every width, of both kinds.
pub fn integers(count: usize) -> io::Result<Vec<u8>> {
    let mut draw = Draw(4);
    let mut out = Vec::new();
    for _ in 0..count {
        let value = draw.next() >> draw.below(64);
        match draw.below(3) {
            0 => write_i32(&mut out, value as i32)?,
            1 => write_u32(&mut out, value as u32)?,
            _ => write_u64(&mut out, value)?,
        };
    }
    Ok(out)
}

/// Floats of 2, 4 and 8 bytes; those of 2 bytes also subnormal.
pub fn floats(count: usize) -> io::Result<Vec<u8>> {
    let mut draw = Draw(5);
    let mut out = Vec::new();
    for _ in 0..count {
        let value = draw.next();
        match draw.below(4) {
            0 => write_f32(&mut out, (value % 2048) as f32 / 4.0)?,
            1 => write_f32(&mut out, (1 + value % 1023) as f32 / 16_777_216.0)?,
            2 => write_f32(&mut out, (value % 1_000_000) as f32 / 3.0)?,
            _ => write_f64(&mut out, (value % 1_000_000) as f64 / 7.0)?,
        };
    }
    Ok(out)
}
