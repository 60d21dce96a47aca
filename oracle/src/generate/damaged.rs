//! Damaged copies of good files: cut at every byte, one byte changed, two swapped.

use std::io::{self, Write};

use super::random::Random;
use super::sink::Sink;
use super::{atoms, forms};
use crate::wire::{HeldRead, HeldReads, Reading, Request, Way};

/// A file of atoms that a reader takes, where they start, and what they cost.
struct File {
    bytes: Vec<u8>,
    starts: Vec<u64>,
    charge: u64,
}

fn good(random: &mut Random) -> File {
    let mut file = File { bytes: Vec::new(), starts: Vec::new(), charge: 0 };
    for _ in 0..1 + random.below(6) {
        file.starts.push(file.bytes.len() as u64);
        file.charge += if random.once_in(2) {
            atoms::put_good(random, &mut file.bytes)
        } else {
            forms::put_shortest(random, &mut file.bytes)
        };
    }
    file
}

/// Asks about a good file and about its damaged copies.
pub fn file(random: &mut Random, sink: &mut Sink<impl Write>) -> io::Result<()> {
    let file = good(random);
    ask(random, sink, &file, &file.bytes)?;
    for length in 0..file.bytes.len() {
        ask(random, sink, &file, &file.bytes[..length])?;
    }
    let mut copy = file.bytes.clone();
    for at in 0..copy.len() {
        let byte = copy[at];
        copy[at] = if random.once_in(2) { random.byte() } else { byte ^ 1 << random.below(8) };
        ask(random, sink, &file, &copy)?;
        copy[at] = byte;
        let other = random.index(copy.len());
        copy.swap(at, other);
        ask(random, sink, &file, &copy)?;
        copy.swap(at, other);
    }
    Ok(())
}

/// A run, a tally, a check, as many atoms as the file had from one reader, and at one of the places where atoms started
/// an atom and a step.
fn ask(random: &mut Random, sink: &mut Sink<impl Write>, file: &File, source: &[u8]) -> io::Result<()> {
    let budget = match random.below(4) {
        0 => file.charge.saturating_sub(1),
        1 => u64::MAX,
        _ => file.charge,
    };
    sink.put(&Request::Run(budget, source))?;
    sink.put(&Request::Tally(source))?;
    sink.put(&Request::Check(source))?;
    sink.put(&Request::Sequence(budget, source, HeldReads::new(file.starts.iter().map(|_| HeldRead::Atom))))?;
    let reading = Reading { way: *random.pick(&Way::ALL), place: *random.pick(&file.starts), source };
    sink.put(&Request::ReadAtom(budget, reading))?;
    sink.put(&Request::Step(budget, reading.place, source))
}
