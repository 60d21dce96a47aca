//! Reads, both ways.

use super::numbers::{told_float, told_integer};
use super::source::{exact, filled, place, read_placed, Source};
use super::{kind, size, Oracle};
use crate::format::{read_atom_header, read_header, Atom, Float, Integer, Kind, Nucleus};
use crate::reader::BufferedBytes;
use crate::wire::{self, After, Answer, Places, Reading, Refusal, Request, Skip, Text, Value, Way};
use crate::Error;

impl Oracle {
    pub(super) fn answer_reader<'a>(&'a mut self, request: &Request<'a>) -> Answer<'a> {
        let reading = reading_of(request);
        if self.too_long(request, &reading) {
            return Answer::Skipped(Skip::Length);
        }
        match reading.way {
            Way::Filled => self.read(&mut filled(&reading), request, &reading),
            Way::ExactLent | Way::ExactCopied | Way::Unnamed => self.read(&mut exact(&reading), request, &reading),
        }
    }

    /// Asks a reader, which stands where the reading starts.
    pub(super) fn read<'s, 'a>(
        &'s mut self,
        reader: &mut impl Source<'a>,
        request: &Request<'a>,
        reading: &Reading<'a>,
    ) -> Answer<'s> {
        if let Request::ReadAtom(budget, _) = *request {
            return self.atom(reader, budget, reading);
        }
        let outcome = match *request {
            Request::ReadAtomHeader(_) => read_atom_header(reader).map(|(kind, arg)| Value::Words(kind as u64, arg)),
            Request::ReadHeader(_) => read_header(reader).map(|version| Value::Word(u64::from(version))),
            Request::IntegerReadFrom(code, count, _) => {
                Integer::read_from(kind(code), size(count), reader).map(|integer| Value::Integer(told_integer(integer)))
            }
            Request::FloatReadFrom(code, count, _) => {
                Float::read_from(kind(code), size(count), reader).map(|float| Value::Float(told_float(float)))
            }
            Request::BufferedReadBytes(length, _) => self.string(reader, length, reading).map(Value::Text),
            Request::Read(length, _) => self.bytes(reader, length),
            Request::ReadExact(length, _) => self.exact_bytes(reader, length),
            Request::Remaining(_) => Ok(Value::Words(reader.left() as u64, u64::from(filled(reading).is_empty()))),
            _ => unreachable!("every other code is answered elsewhere"),
        };
        Answer::Given(After::Place(place(reader, reading)), outcome.map_err(Refusal::from))
    }

    fn atom<'s, 'a>(&'s mut self, reader: &mut impl Source<'a>, budget: u64, reading: &Reading<'a>) -> Answer<'s> {
        let mut budget = size(budget);
        let outcome = read_placed(reader, reading, &mut budget, &mut self.scratch);
        let after = After::PlaceAndBudget(place(reader, reading), budget as u64);
        let outcome = outcome.map(|(atom, places)| told_atom(&atom, places, &self.scratch, reading));
        Answer::Given(after, outcome.map_err(Refusal::from))
    }

    /// The step, which the original does not have: an atom read exactly, its value forgotten.
    pub(super) fn answer_step<'a>(&mut self, request: &Request<'a>) -> Answer<'static> {
        let Request::Step(budget, place, source) = *request else {
            unreachable!("every other code is answered elsewhere")
        };
        let reading = Reading { way: Way::ExactLent, place, source };
        match self.answer_reader(&Request::ReadAtom(budget, reading)) {
            Answer::Given(after, Ok(Value::Atom(kind, _, places, _))) => {
                Answer::Given(after, Ok(Value::Step(places, kind == Kind::Bytes as u8)))
            }
            Answer::Given(after, Err(refusal)) => Answer::Given(after, Err(refusal)),
            Answer::Skipped(skip) => Answer::Skipped(skip),
            _ => unreachable!("an atom is answered by an atom"),
        }
    }

    fn string<'s, 'a>(
        &'s mut self,
        reader: &mut impl Source<'a>,
        length: u64,
        reading: &Reading<'a>,
    ) -> Result<Text<'s>, Error> {
        let bytes = reader.buffered_read_bytes(size(length), &mut self.scratch)?;
        Ok(told_text(&bytes, &self.scratch, place(reader, reading), reading))
    }

    /// `Read::read` into a buffer of that length, cut to what it says it read.
    fn bytes<'s, 'a>(&'s mut self, reader: &mut impl Source<'a>, length: u64) -> Result<Value<'s>, Error> {
        self.scratch.clear();
        self.scratch.resize(size(length), 0);
        let count = reader.read(&mut self.scratch)?;
        Ok(Value::Bytes(&self.scratch[..count]))
    }

    /// `Read::read_exact` into a buffer of that many zeros.
    fn exact_bytes<'s, 'a>(&'s mut self, reader: &mut impl Source<'a>, length: u64) -> Result<Value<'s>, Error> {
        self.scratch.clear();
        self.scratch.resize(size(length), 0);
        reader.read_exact(&mut self.scratch)?;
        Ok(Value::Bytes(&self.scratch))
    }

    /// Whether the request needs more memory than is set aside: a string under exact reading, or a buffer.
    fn too_long(&self, request: &Request<'_>, reading: &Reading<'_>) -> bool {
        match *request {
            Request::ReadAtom(budget, _) => reading.way != Way::Filled && self.long_string(reading, budget),
            Request::BufferedReadBytes(length, _) => reading.way != Way::Filled && self.past(reading, length),
            Request::Read(length, _) | Request::ReadExact(length, _) => self.past(reading, length),
            _ => false,
        }
    }

    /// Whether an atom within its budget is a string that runs too far past the source.
    pub(super) fn long_string(&self, reading: &Reading<'_>, budget: u64) -> bool {
        let header = read_atom_header(&mut exact(reading));
        matches!(header, Ok((Kind::Bytes, length)) if length <= budget && self.past(reading, length))
    }

    fn past(&self, reading: &Reading<'_>, length: u64) -> bool {
        length > self.reserve.saturating_add(reading.rest().len() as u64)
    }
}

fn reading_of<'a>(request: &Request<'a>) -> Reading<'a> {
    match *request {
        Request::ReadAtomHeader(reading)
        | Request::ReadHeader(reading)
        | Request::ReadAtom(_, reading)
        | Request::IntegerReadFrom(_, _, reading)
        | Request::FloatReadFrom(_, _, reading)
        | Request::BufferedReadBytes(_, reading)
        | Request::Read(_, reading)
        | Request::ReadExact(_, reading)
        | Request::Remaining(reading) => reading,
        _ => unreachable!("every other code is answered elsewhere"),
    }
}

fn told_atom<'a>(atom: &Atom<'_>, places: Places, scratch: &'a [u8], reading: &Reading<'_>) -> Value<'a> {
    let nucleus = match &atom.nucleus {
        None => wire::Nucleus::None,
        Some(Nucleus::Boolean(boolean)) => wire::Nucleus::Boolean(*boolean),
        Some(Nucleus::Integer(integer)) => wire::Nucleus::Integer(told_integer(*integer)),
        Some(Nucleus::Float(float)) => wire::Nucleus::Float(told_float(*float)),
        Some(Nucleus::Bytes(bytes)) => wire::Nucleus::Bytes(told_text(bytes, scratch, places.after, reading)),
        Some(Nucleus::Unit) => wire::Nucleus::Unit,
        Some(Nucleus::Named) => wire::Nucleus::Named,
        Some(Nucleus::DynamicMap) => wire::Nucleus::DynamicMap,
        Some(Nucleus::DynamicEnd) => wire::Nucleus::DynamicEnd,
    };
    Value::Atom(atom.kind as u8, atom.arg, places, nucleus)
}

/// A string as the request's way delivers it. The original has no lent string under exact reading: there the copied
/// bytes are looked up in the source, where they end at the place.
fn told_text<'a>(bytes: &BufferedBytes<'_>, scratch: &'a [u8], place: u64, reading: &Reading<'_>) -> Text<'a> {
    let length = bytes.as_slice(scratch).len();
    match (bytes, reading.way) {
        (BufferedBytes::Data(part), _) => {
            let start = part.as_ptr() as usize - reading.source.as_ptr() as usize;
            Text::Lent(start as u64, length as u64)
        }
        (BufferedBytes::Scratch, Way::ExactLent | Way::Unnamed) => {
            let start = size(place) - length;
            assert_eq!(bytes.as_slice(scratch), &reading.source[start..start + length]);
            Text::Lent(start as u64, length as u64)
        }
        (BufferedBytes::Scratch, _) => Text::Copied(scratch),
    }
}
