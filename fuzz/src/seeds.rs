//! The inputs to start from, of requests in the oracle's line format: those that an export answers too.

use std::io::{self, BufRead};
use std::path::Path;

use oracle::wire::{self, Float, Integer, Request};

use crate::call::{Call, Entry, Parts, Reading, Room};
use crate::ffi::POT_WORDS;
use crate::input::encode;

/// Writes an input for each line that an export answers, a vector or a request alone; says how many.
pub fn write_seeds(lines: impl BufRead, folder: &Path) -> io::Result<usize> {
    let mut count = 0;
    let mut buffer = Vec::new();
    for line in lines.lines() {
        let line = line?;
        let text = line.split(" = ").next().unwrap_or_default();
        let Ok(request) = Request::parse(text.as_bytes(), &mut buffer) else { continue };
        for call in calls(&request) {
            let room = Room { words: POT_WORDS, bytes: call.source().len() + 32 };
            std::fs::write(folder.join(format!("{count:06}")), encode(&call, room))?;
            count += 1;
        }
    }
    Ok(count)
}

/// The calls that ask what the request asks: of a reader those of each entry that reads by its way. The source of an atom is
/// also skipped, walked, run, tallied and checked.
fn calls<'a>(request: &Request<'a>) -> Vec<Call<'a>> {
    match *request {
        Request::ReadHeader(reading) => readings(reading).map(Call::ReadHeader).collect(),
        Request::ReadAtom(budget, reading) => {
            readings(reading).flat_map(|reading| atom_calls(budget, reading)).collect()
        }
        Request::WriteAtomHeader(kind, arg) => vec![Call::WriteAtomHeader(kind, arg)],
        Request::WriteHeader(version) => vec![Call::WriteHeader(version)],
        Request::Run(budget, source) => vec![Call::Run(budget, source)],
        Request::Tally(source) => vec![Call::Tally(source)],
        Request::Check(source) => vec![Call::Check(source)],
        Request::Step(budget, place, source) => {
            vec![Call::SkipAtom(budget, Reading { entry: Entry::Exact, place, source })]
        }
        Request::IntegerAs(to, integer) => vec![Call::Cast(to as u64, parts(integer))],
        Request::IntegerAsF32(integer) => vec![Call::AsF32(parts(integer))],
        Request::IntegerAsF64(integer) => vec![Call::AsF64(parts(integer))],
        Request::IntegerWriteTo(integer) => vec![Call::WriteVariant(parts(integer))],
        Request::FloatAsF32(Float::F64(bits)) => vec![Call::F64AsF32(bits)],
        Request::FloatAsF64(Float::F32(bits)) => vec![Call::F32AsF64(bits)],
        Request::FloatAsInteger(Float::F32(bits)) => vec![Call::F32AsInteger(bits)],
        Request::FloatAsInteger(Float::F64(bits)) => vec![Call::F64AsInteger(bits)],
        Request::WriteInteger(writer, bits) => vec![Call::WriteInteger(writer, bits)],
        Request::WriteSpecial(special) => vec![Call::WriteSpecial(u64::from(special))],
        Request::WriteNone => vec![Call::WriteNone],
        Request::WriteUnit => vec![Call::WriteUnit],
        Request::WriteNamed => vec![Call::WriteNamed],
        Request::WriteBool(truth) => vec![Call::WriteBool(u8::from(truth))],
        Request::WriteBytes(bytes) => vec![Call::WriteBytes(bytes)],
        Request::WriteF32(bits) => vec![Call::WriteF32(bits)],
        Request::WriteF64(bits) => vec![Call::WriteF64(bits)],
        _ => vec![],
    }
}

/// The same place and source for each entry that reads by the request's way.
fn readings(asked: wire::Reading<'_>) -> impl Iterator<Item = Reading<'_>> {
    let wire::Reading { way, place, source } = asked;
    Entry::ALL.into_iter().filter(move |entry| entry.way() == way).map(move |entry| Reading { entry, place, source })
}

fn atom_calls(budget: u64, reading: Reading<'_>) -> Vec<Call<'_>> {
    let Reading { entry, source, .. } = reading;
    let read = Call::ReadAtom(budget, reading);
    match entry {
        Entry::Unnamed | Entry::Filled => vec![read, Call::Walk(budget, entry, source)],
        Entry::Exact => vec![read, Call::SkipAtom(budget, reading), Call::Tally(source), Call::Check(source)],
        Entry::Copied => vec![read, Call::Run(budget, source), Call::Walk(budget, entry, source)],
    }
}

const fn parts(integer: Integer) -> Parts {
    Parts { variant: integer.variant as u64, bits: integer.bits }
}
