//! Requests that can be listed whole.

use std::io::{self, Write};

use super::atoms::{put_header, INTEGER_COUNTS};
use super::edges;
use super::sink::Sink;
use crate::wire::{code, Float, Integer, Reading, Request, Variant, Way, Writer};

pub fn all(sink: &mut Sink<impl Write>) -> io::Result<()> {
    codes(sink)?;
    signatures(sink)?;
    written_headers(sink)?;
    checked_headers(sink)?;
    short_headers(sink)?;
    short_integers(sink)?;
    halves(sink)?;
    integer_edges(sink)?;
    float_edges(sink)
}

const READERS: [Way; 2] = [Way::Filled, Way::ExactCopied];

const fn start(way: Way, source: &[u8]) -> Reading<'_> {
    Reading { way, place: 0, source }
}

/// Every kind code, special code and version, every special and boolean written, every short string.
fn codes(sink: &mut Sink<impl Write>) -> io::Result<()> {
    for byte in 0..=u8::MAX {
        sink.put(&Request::KindFromU8(byte))?;
        sink.put(&Request::SpecialTryFrom(u64::from(byte)))?;
        sink.put(&Request::WriteHeader(byte))?;
        sink.put(&Request::InMemoryIntSize(u64::from(byte)))?;
        sink.put(&Request::WriteBytes(&vec![byte; usize::from(byte)]))?;
    }
    for special in 0..7 {
        sink.put(&Request::WriteSpecial(special))?;
    }
    for request in [Request::WriteNone, Request::WriteUnit, Request::WriteNamed] {
        sink.put(&request)?;
    }
    sink.put(&Request::WriteBool(false))?;
    sink.put(&Request::WriteBool(true))
}

/// Each signature byte with every value, the others right; each cut.
fn signatures(sink: &mut Sink<impl Write>) -> io::Result<()> {
    for way in Way::ALL {
        for at in 0..4 {
            for byte in 0..=u8::MAX {
                let mut source = *b"Pot\x01";
                source[at] = byte;
                sink.put(&Request::ReadHeader(start(way, &source)))?;
                sink.put(&Request::ReadHeader(start(way, &source[..at])))?;
            }
        }
    }
    Ok(())
}

/// Every kind with the arguments around each power of two.
fn written_headers(sink: &mut Sink<impl Write>) -> io::Result<()> {
    for kind in 0..8 {
        for power in 0..64 {
            for step in 0..5 {
                let arg = (1_u64 << power).wrapping_add(step).wrapping_sub(2);
                sink.put(&Request::WriteAtomHeader(kind, arg))?;
            }
        }
    }
    Ok(())
}

/// Every kind with the same arguments, checked behind headers of every length and behind each tenth byte that reads as
/// the same, whole and a byte short.
fn checked_headers(sink: &mut Sink<impl Write>) -> io::Result<()> {
    for kind in 0..8 {
        for power in 0..64 {
            for step in 0..5 {
                let arg = (1_u64 << power).wrapping_add(step).wrapping_sub(2);
                for extra in 0..10 {
                    checked_atom(sink, kind, arg, extra, 0)?;
                }
                for dropped in 1..16 {
                    checked_atom(sink, kind, arg, 9, dropped << 4)?;
                }
            }
        }
    }
    Ok(())
}

/// Checks an atom with a header so many bytes longer, whose tenth byte has the `dropped` bits, and the atom cut by a
/// byte. The body is such that no fewer bytes hold its number; a long one is left out.
fn checked_atom(sink: &mut Sink<impl Write>, kind: u8, arg: u64, extra: usize, dropped: u8) -> io::Result<()> {
    let mut atom = Vec::new();
    put_header(&mut atom, kind, arg, extra);
    if let Some(tenth) = atom.get_mut(9) {
        *tenth |= dropped;
    }
    let body = match kind {
        1..=3 => arg.wrapping_add(1),
        7 => arg,
        _ => 0,
    };
    if body <= 2050 {
        atom.extend((0..body).map(|_| 0x55));
    }
    sink.put(&Request::Check(&atom))?;
    sink.put(&Request::Check(&atom[..atom.len() - 1]))
}

/// Every source of up to two bytes, as a header and as an atom, by every way, stepped over and checked.
fn short_headers(sink: &mut Sink<impl Write>) -> io::Result<()> {
    every_way(sink, &[])?;
    for first in 0..=u8::MAX {
        every_way(sink, &[first])?;
        for second in 0..=u8::MAX {
            every_way(sink, &[first, second])?;
        }
    }
    Ok(())
}

fn every_way(sink: &mut Sink<impl Write>, source: &[u8]) -> io::Result<()> {
    for way in Way::ALL {
        sink.put(&Request::ReadAtomHeader(start(way, source)))?;
        sink.put(&Request::ReadAtom(u64::MAX, start(way, source)))?;
    }
    sink.put(&Request::Step(u64::MAX, 0, source))?;
    sink.put(&Request::Check(source))
}

/// All integers of one and two bytes: read, written, made and cast.
fn short_integers(sink: &mut Sink<impl Write>) -> io::Result<()> {
    for bits in 0..=u16::MAX {
        let source = bits.to_le_bytes();
        for way in READERS {
            for kind in [1, 2] {
                sink.put(&Request::IntegerReadFrom(kind, 2, start(way, &source)))?;
            }
        }
        for variant in [Variant::I16, Variant::U16] {
            integer(sink, Integer { variant, bits: edges::cut(variant.signed(), 16, u128::from(bits)) })?;
        }
    }
    for byte in 0..=u8::MAX {
        for way in READERS {
            for kind in [1, 2] {
                sink.put(&Request::IntegerReadFrom(kind, 1, start(way, &[byte])))?;
            }
        }
        for variant in [Variant::I8, Variant::U8] {
            integer(sink, Integer { variant, bits: edges::cut(variant.signed(), 8, u128::from(byte)) })?;
        }
    }
    Ok(())
}

/// Everything that can be done with one integer.
fn integer(sink: &mut Sink<impl Write>, integer: Integer) -> io::Result<()> {
    for variant in Variant::ALL {
        sink.put(&Request::IntegerAs(variant, integer))?;
        if variant.holds(integer.bits) {
            sink.put(&Request::IntegerFrom(variant, integer.bits))?;
        }
    }
    for writer in Writer::ALL {
        if writer.takes() == integer.variant {
            sink.put(&Request::WriteInteger(writer, integer.bits))?;
        }
    }
    sink.put(&Request::IntegerAsF32(integer))?;
    sink.put(&Request::IntegerAsF64(integer))?;
    sink.put(&Request::IntegerAsFloat(integer))?;
    sink.put(&Request::IntegerIsZero(integer))?;
    sink.put(&Request::IntegerWriteTo(integer))?;
    stored_integer(sink, integer)
}

/// Checks an integer that is stored in each count of bytes that holds it.
#[allow(clippy::cast_possible_truncation)]
fn stored_integer(sink: &mut Sink<impl Write>, Integer { variant, bits }: Integer) -> io::Result<()> {
    let kind = if variant.signed() { 1 } else { 2 };
    for count in INTEGER_COUNTS {
        if edges::cut(variant.signed(), 8 * count as u32, bits) == bits {
            let mut atom = Vec::new();
            put_header(&mut atom, kind, count - 1, 0);
            atom.extend(&bits.to_le_bytes()[..count as usize]);
            sink.put(&Request::Check(&atom))?;
        }
    }
    Ok(())
}

/// All 65,536 binary16 patterns: read both ways, as an atom also by no named way, and checked, and the same values and
/// the patterns beside them written, cast and checked.
fn halves(sink: &mut Sink<impl Write>) -> io::Result<()> {
    for bits in 0..=u16::MAX {
        let source = bits.to_le_bytes();
        let atom = [0x61, source[0], source[1]];
        for way in READERS {
            sink.put(&Request::FloatReadFrom(3, 2, start(way, &source)))?;
            sink.put(&Request::ReadAtom(2, start(way, &atom)))?;
        }
        sink.put(&Request::ReadAtom(2, start(Way::Unnamed, &atom)))?;
        sink.put(&Request::Check(&atom))?;
        let single = edges::widened(bits);
        for beside in [single.wrapping_sub(1), single + 1] {
            sink.put(&Request::WriteF32(beside))?;
            stored_float(sink, Float::F32(beside))?;
        }
        float(sink, Float::F32(single))?;
        float(sink, Float::F64(f64::from(f32::from_bits(single)).to_bits()))?;
    }
    Ok(())
}

/// Everything that can be done with one float.
fn float(sink: &mut Sink<impl Write>, float: Float) -> io::Result<()> {
    sink.put(&match float {
        Float::F32(bits) => Request::WriteF32(bits),
        Float::F64(bits) => Request::WriteF64(bits),
    })?;
    sink.put(&Request::FloatIsZero(float))?;
    sink.put(&Request::FloatAsF32(float))?;
    sink.put(&Request::FloatAsF64(float))?;
    sink.put(&Request::FloatAsInteger(float))?;
    sink.put(&Request::FloatWriteTo(float))?;
    stored_float(sink, float)
}

/// Checks a float that is stored in its own width.
fn stored_float(sink: &mut Sink<impl Write>, float: Float) -> io::Result<()> {
    let mut atom = Vec::new();
    match float {
        Float::F32(bits) => {
            put_header(&mut atom, 3, 3, 0);
            atom.extend(bits.to_le_bytes());
        }
        Float::F64(bits) => {
            put_header(&mut atom, 3, 7, 0);
            atom.extend(bits.to_le_bytes());
        }
    }
    sink.put(&Request::Check(&atom))
}

/// Every variant at the edges of every width; every pair of these for equality.
fn integer_edges(sink: &mut Sink<impl Write>) -> io::Result<()> {
    let all: Vec<Integer> = Variant::ALL.into_iter().flat_map(edges::integers).collect();
    for left in &all {
        integer(sink, *left)?;
        if sink.wants(code::INTEGER_EQUAL) {
            for right in &all {
                sink.put(&Request::IntegerEqual(*left, *right))?;
            }
        }
    }
    Ok(())
}

/// Both widths of float at every edge; every pair of these for equality.
fn float_edges(sink: &mut Sink<impl Write>) -> io::Result<()> {
    let all = edges::floats();
    for left in &all {
        float(sink, *left)?;
        if sink.wants(code::FLOAT_EQUAL) {
            for right in &all {
                sink.put(&Request::FloatEqual(*left, *right))?;
            }
        }
    }
    Ok(())
}
