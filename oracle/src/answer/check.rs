//! The check for shortest form. The original does not have it: each atom is read, written again by the original's own
//! writers from what was read, and compared byte for byte.

use std::io;

use super::numbers::{told_float, told_integer};
use super::source::{exact, read_placed};
use super::{size, write, Oracle};
use crate::format::{write_atom_header, Atom, Kind, Nucleus, Special};
use crate::wire::{After, Answer, Float, Reading, Refusal, Request, Skip, Value, Way};

impl Oracle {
    /// Reads each atom exactly, without a budget; what it refuses comes before the comparison.
    pub(super) fn answer_check(&mut self, request: &Request<'_>) -> Answer<'static> {
        let Request::Check(source) = *request else { unreachable!("every other code is answered elsewhere") };
        let mut start = 0;
        while start < source.len() as u64 {
            let reading = Reading { way: Way::ExactCopied, place: start, source };
            if self.long_string(&reading, u64::MAX) {
                return Answer::Skipped(Skip::Length);
            }
            let mut budget = usize::MAX;
            match read_placed(&mut exact(&reading), &reading, &mut budget, &mut self.scratch) {
                Err(error) => return refused(start, error.into()),
                Ok((atom, places)) => {
                    let stored = &source[size(places.first)..size(places.after)];
                    let body = &source[size(places.body)..size(places.after)];
                    self.written.clear();
                    write_again(&mut self.written, &atom, body, &self.scratch).expect("a Vec takes every byte");
                    if self.written != stored {
                        return refused(start, Refusal::NotShortest);
                    }
                    start = places.after;
                }
            }
        }
        Answer::Given(After::Nothing, Ok(Value::Nothing))
    }
}

const fn refused(start: u64, refusal: Refusal) -> Answer<'static> {
    Answer::Given(After::Place(start), Err(refusal))
}

/// Appends what the writers make of an atom that was read. A binary16 NaN was widened by the read, and no writer writes
/// one: it keeps its body, behind the header that is written.
fn write_again(written: &mut Vec<u8>, atom: &Atom<'_>, body: &[u8], scratch: &[u8]) -> io::Result<usize> {
    if let (Some(Nucleus::Float(float)), 2) = (&atom.nucleus, body.len()) {
        if is_nan(told_float(*float)) {
            let header = write_atom_header(&mut *written, atom.kind, atom.arg)?;
            written.extend_from_slice(body);
            return Ok(header + body.len());
        }
    }
    write(written, &writing(atom, scratch))
}

/// The request that writes an atom's value; floats go by their bits. A sequence, a map and a symbol are their header.
fn writing<'a>(atom: &'a Atom<'_>, scratch: &'a [u8]) -> Request<'a> {
    match &atom.nucleus {
        None if atom.kind == Kind::Special => Request::WriteNone,
        None => Request::WriteAtomHeader(atom.kind as u8, atom.arg),
        Some(Nucleus::Unit) => Request::WriteUnit,
        Some(Nucleus::Boolean(boolean)) => Request::WriteBool(*boolean),
        Some(Nucleus::Named) => Request::WriteNamed,
        Some(Nucleus::DynamicMap) => Request::WriteSpecial(Special::DynamicMap as u8),
        Some(Nucleus::DynamicEnd) => Request::WriteSpecial(Special::DynamicEnd as u8),
        Some(Nucleus::Integer(integer)) => Request::IntegerWriteTo(told_integer(*integer)),
        Some(Nucleus::Float(float)) => Request::FloatWriteTo(told_float(*float)),
        Some(Nucleus::Bytes(bytes)) => Request::WriteBytes(bytes.as_slice(scratch)),
    }
}

const fn is_nan(float: Float) -> bool {
    match float {
        Float::F32(bits) => f32::from_bits(bits).is_nan(),
        Float::F64(bits) => f64::from_bits(bits).is_nan(),
    }
}
