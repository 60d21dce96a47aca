//! A random request of a given code.

use std::io::{self, Write};

use super::random::Random;
use super::sink::Sink;
use super::{atoms, edges, forms};
use crate::wire::{code, HeldRead, HeldReads, Reading, Request, Variant, Way, Writer};

/// A source of requests, with a buffer for their bytes.
pub struct Drawer {
    pub random: Random,
    bytes: Vec<u8>,
}

impl Drawer {
    pub const fn new(random: Random) -> Self {
        Self { random, bytes: Vec::new() }
    }

    /// Makes a request of that code and hands it to the sink.
    pub fn draw(&mut self, code: u8, sink: &mut Sink<impl Write>) -> io::Result<()> {
        self.bytes.clear();
        let request = match code {
            0x10..=0x11 | 0x20..=0x26 | code::STEP => self.reader(code),
            0x27..=0x2a => self.whole(code),
            code::SEQUENCE => self.sequence(),
            code::CHECK => self.check(),
            0x30..=0x4f => self.integer(code),
            0x50..=0x5f => self.float(code),
            _ => self.writer(code),
        };
        sink.put(&request)
    }

    fn reader(&mut self, code: u8) -> Request<'_> {
        let random = &mut self.random;
        let way = *random.pick(Way::of(code));
        let before = random.index(4) * random.index(2);
        random.fill(&mut self.bytes, before);
        let kind = kind_for(random, code);
        let word = match code {
            code::READ_HEADER => put_signature(random, &mut self.bytes),
            code::READ_ATOM_HEADER | code::READ_ATOM | code::STEP => put_atom(random, &mut self.bytes),
            _ => put_counted(random, &mut self.bytes, code, kind),
        };
        let body = self.bytes.len() - before;
        resize(random, &mut self.bytes, body);
        let place = place(random, before, self.bytes.len());
        let reading = Reading { way, place, source: &self.bytes };
        match code {
            code::READ_ATOM_HEADER => Request::ReadAtomHeader(reading),
            code::READ_HEADER => Request::ReadHeader(reading),
            code::READ_ATOM => Request::ReadAtom(word, reading),
            code::INTEGER_READ_FROM => Request::IntegerReadFrom(kind, word, reading),
            code::FLOAT_READ_FROM => Request::FloatReadFrom(kind, word, reading),
            code::BUFFERED_READ_BYTES => Request::BufferedReadBytes(word, reading),
            code::READ => Request::Read(word, reading),
            code::READ_EXACT => Request::ReadExact(word, reading),
            code::STEP => Request::Step(word, reading.place, reading.source),
            _ => Request::Remaining(reading),
        }
    }

    fn whole(&mut self, code: u8) -> Request<'_> {
        let random = &mut self.random;
        match code {
            code::UPDATE_BUDGET => {
                let amount = edges::word(random);
                Request::UpdateBudget(budget(random, amount), amount)
            }
            code::IN_MEMORY_INT_SIZE => Request::InMemoryIntSize(edges::word(random)),
            _ => {
                let mut total = 0_u64;
                for _ in 0..random.below(8) {
                    total = total.wrapping_add(match random.below(12) {
                        0 => atoms::put_any(random, &mut self.bytes),
                        _ => atoms::put_good(random, &mut self.bytes),
                    });
                }
                if code == code::RUN {
                    Request::Run(budget(random, total), &self.bytes)
                } else {
                    Request::Tally(&self.bytes)
                }
            }
        }
    }

    /// Reads with the bytes that they ask for, one after the other; the last of them cut, or more behind them.
    fn sequence(&mut self) -> Request<'_> {
        let random = &mut self.random;
        let count = 1 + random.index(HeldReads::MOST);
        let mut total = 0;
        let mut last = 0;
        let reads = HeldReads::new((0..count).map(|_| {
            let start = self.bytes.len();
            let read = held_read(random, &mut self.bytes, &mut total);
            last = self.bytes.len() - start;
            read
        }));
        resize(random, &mut self.bytes, last);
        Request::Sequence(budget(random, total), &self.bytes, reads)
    }

    /// Atoms in shortest form, now and then one that is longer, unknown or any other, the last of them often cut, or
    /// more behind them; or bytes at random.
    fn check(&mut self) -> Request<'_> {
        let random = &mut self.random;
        if random.once_in(16) {
            let count = random.index(14);
            random.fill(&mut self.bytes, count);
            return Request::Check(&self.bytes);
        }
        let mut last = 0;
        for _ in 0..random.below(8) {
            let start = self.bytes.len();
            match random.below(32) {
                0..=2 => forms::put_longer(random, &mut self.bytes),
                3 | 4 => forms::put_unknown(random, &mut self.bytes),
                5 => atoms::put_any(random, &mut self.bytes),
                _ => forms::put_shortest(random, &mut self.bytes),
            };
            last = self.bytes.len() - start;
        }
        if random.once_in(2) {
            resize(random, &mut self.bytes, last);
        }
        Request::Check(&self.bytes)
    }

    fn integer(&mut self, code: u8) -> Request<'_> {
        let random = &mut self.random;
        let integer = edges::integer(random);
        match code {
            0x30..=0x39 => Request::IntegerAs(Variant::ALL[usize::from(code - code::INTEGER_AS)], integer),
            code::INTEGER_AS_F32 => Request::IntegerAsF32(integer),
            code::INTEGER_AS_F64 => Request::IntegerAsF64(integer),
            code::INTEGER_AS_FLOAT => Request::IntegerAsFloat(integer),
            code::INTEGER_IS_ZERO => Request::IntegerIsZero(integer),
            code::INTEGER_WRITE_TO => Request::IntegerWriteTo(integer),
            code::INTEGER_EQUAL => {
                let mut other = edges::integer(random);
                if random.once_in(2) && other.variant.holds(integer.bits) {
                    other.bits = integer.bits;
                }
                Request::IntegerEqual(integer, other)
            }
            _ => {
                let variant = Variant::ALL[usize::from(code - code::INTEGER_FROM)];
                Request::IntegerFrom(variant, edges::value(random, variant))
            }
        }
    }

    fn float(&mut self, code: u8) -> Request<'_> {
        let random = &mut self.random;
        let float = edges::float(random);
        match code {
            code::FLOAT_IS_ZERO => Request::FloatIsZero(float),
            code::FLOAT_AS_F32 => Request::FloatAsF32(float),
            code::FLOAT_AS_F64 => Request::FloatAsF64(float),
            code::FLOAT_AS_INTEGER => Request::FloatAsInteger(float),
            code::FLOAT_WRITE_TO => Request::FloatWriteTo(float),
            _ => Request::FloatEqual(float, edges::other_float(random, float)),
        }
    }

    #[allow(clippy::cast_possible_truncation)]
    fn writer(&mut self, code: u8) -> Request<'_> {
        let random = &mut self.random;
        match code {
            code::KIND_FROM_U8 => Request::KindFromU8(random.byte()),
            code::SPECIAL_TRY_FROM => Request::SpecialTryFrom(edges::word(random)),
            code::WRITE_ATOM_HEADER => Request::WriteAtomHeader(random.below(8) as u8, edges::word(random)),
            code::WRITE_HEADER => Request::WriteHeader(random.byte()),
            0x60..=0x6d => {
                let writer = Writer::ALL[usize::from(code - code::WRITE_INTEGER)];
                Request::WriteInteger(writer, edges::written(random, writer))
            }
            code::WRITE_SPECIAL => Request::WriteSpecial(random.below(7) as u8),
            code::WRITE_NONE => Request::WriteNone,
            code::WRITE_UNIT => Request::WriteUnit,
            code::WRITE_NAMED => Request::WriteNamed,
            code::WRITE_BOOL => Request::WriteBool(random.once_in(2)),
            code::WRITE_BYTES => {
                let length = string_length(random);
                random.fill(&mut self.bytes, length);
                Request::WriteBytes(&self.bytes)
            }
            code::WRITE_F32 => Request::WriteF32(edges::single(random)),
            _ => Request::WriteF64(edges::double(random)),
        }
    }
}

/// A read of a sequence, with the bytes that it asks for; adds what it costs.
fn held_read(random: &mut Random, bytes: &mut Vec<u8>, total: &mut u64) -> HeldRead {
    match random.below(6) {
        0 => HeldRead::Remaining,
        1 => {
            let kind = kind_for(random, code::INTEGER_READ_FROM);
            HeldRead::Integer(kind, put_counted(random, bytes, code::INTEGER_READ_FROM, kind))
        }
        2 => {
            let kind = kind_for(random, code::FLOAT_READ_FROM);
            HeldRead::Float(kind, put_counted(random, bytes, code::FLOAT_READ_FROM, kind))
        }
        3 => HeldRead::Bytes(put_counted(random, bytes, code::BUFFERED_READ_BYTES, 7)),
        _ => {
            let charge = if random.once_in(4) { atoms::put_any(random, bytes) } else { atoms::put_good(random, bytes) };
            *total = total.saturating_add(charge);
            HeldRead::Atom
        }
    }
}

/// Appends four bytes that are often a signature, or one with bits more or less.
fn put_signature(random: &mut Random, bytes: &mut Vec<u8>) -> u64 {
    let good = 0x506f_7400 | u32::from(random.byte());
    let signature = match random.below(4) {
        0 => good,
        1 => good | 1 << random.below(32) | 1 << random.below(32),
        2 => good & !(1 << random.below(32)),
        _ => good ^ random.word() as u32 & random.word() as u32 & random.word() as u32,
    };
    bytes.extend(signature.to_be_bytes());
    0
}

/// Appends an atom, or bytes at random; answers a budget for it.
fn put_atom(random: &mut Random, bytes: &mut Vec<u8>) -> u64 {
    if random.once_in(8) {
        let count = random.index(14);
        random.fill(bytes, count);
        return edges::word(random);
    }
    let charge = atoms::put_any(random, bytes);
    budget(random, charge)
}

/// Appends bytes for a read of a count that the request gives; answers that count.
fn put_counted(random: &mut Random, bytes: &mut Vec<u8>, code: u8, kind: u8) -> u64 {
    let count = match code {
        code::INTEGER_READ_FROM if !random.once_in(8) => *random.pick(&atoms::INTEGER_COUNTS),
        code::FLOAT_READ_FROM if !random.once_in(8) => *random.pick(&atoms::FLOAT_COUNTS),
        code::INTEGER_READ_FROM | code::FLOAT_READ_FROM => edges::word(random),
        code::BUFFERED_READ_BYTES if random.once_in(16) => edges::word(random),
        _ => random.below(24),
    };
    let length = if count > 64 { random.below(24) } else { count };
    atoms::put_number(random, bytes, kind, length);
    count
}

/// The charge, one less, one more, or any other number.
fn budget(random: &mut Random, charge: u64) -> u64 {
    match random.below(8) {
        0 | 1 => charge,
        2 => charge.wrapping_sub(1),
        3 => charge.wrapping_add(1),
        4 => u64::MAX,
        5 => random.below(20),
        _ => charge.saturating_add(random.below(1000)),
    }
}

/// Leaves the bytes as they are, cuts one or more off the last `body`, or adds some.
fn resize(random: &mut Random, bytes: &mut Vec<u8>, body: usize) {
    let length = bytes.len();
    match random.below(6) {
        0 if body > 0 => bytes.truncate(length - 1),
        1 if body > 0 => bytes.truncate(length - 1 - random.index(body)),
        2 => {
            let count = random.index(6);
            random.fill(bytes, count);
        }
        _ => {}
    }
}

/// Mostly the place where the bytes in question start; else the end, past it, or any other.
fn place(random: &mut Random, start: usize, length: usize) -> u64 {
    let (start, length) = (start as u64, length as u64);
    match random.below(12) {
        0 => length,
        1 => length + 1 + random.below(3),
        2 => random.below(length + 1),
        3 if random.once_in(4) => u64::MAX - random.below(2),
        _ => start,
    }
}

/// The kind that a number read is asked for: mostly the right one.
fn kind_for(random: &mut Random, code: u8) -> u8 {
    if random.once_in(10) {
        return random.below(8) as u8;
    }
    match code {
        code::FLOAT_READ_FROM => 3,
        _ => 1 + random.below(2) as u8,
    }
}

fn string_length(random: &mut Random) -> usize {
    match random.below(64) {
        0 => 2040 + random.index(20),
        1..=8 => 120 + random.index(20),
        _ => random.index(24),
    }
}
