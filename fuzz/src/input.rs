//! The fuzzer's bytes as a call and its room, and back. The first byte chooses the call, the next ones are the room and
//! the call's numbers, of a reader also which entry it is, and the rest is the source. A byte that is missing is zero, so
//! that every input is a call.
//!
//! A number below `WIDE` is one byte; a larger one is `WIDE` and its count of bytes less one, then the bytes, lowest first.

use oracle::wire::Writer;

use crate::call::{Call, Entry, Parts, Reading, Room};
use crate::ffi::POT_WORDS;

const WIDE: u8 = 0xf0;
/// How many calls there are: those of `Bytes::call`.
const CALLS: u8 = 39;
const FIRST_WRITER: u8 = 13;
/// The largest room for words, some more than an answer has, and for bytes.
const MOST_WORDS: u128 = POT_WORDS as u128 + 4;
const BYTES: u128 = 8192;

/// The call that the bytes stand for, and the room that it is lent.
pub fn decode(bytes: &[u8]) -> (Call<'_>, Room) {
    let mut bytes = Bytes { rest: bytes };
    let code = bytes.byte() % CALLS;
    let words = (bytes.number() % (MOST_WORDS + 1)) as usize;
    let room = (bytes.number() % (BYTES + 1)) as usize;
    (bytes.call(code), Room { words, bytes: room })
}

struct Bytes<'a> {
    rest: &'a [u8],
}

impl<'a> Bytes<'a> {
    fn byte(&mut self) -> u8 {
        let Some((first, rest)) = self.rest.split_first() else { return 0 };
        self.rest = rest;
        *first
    }

    fn number(&mut self) -> u128 {
        let first = self.byte();
        if first < WIDE {
            return u128::from(first);
        }
        (0..=first - WIDE).fold(0, |value, place| value | u128::from(self.byte()) << (8 * place))
    }

    fn word(&mut self) -> u64 {
        self.number() as u64
    }

    fn parts(&mut self) -> Parts {
        Parts { variant: self.word(), bits: self.number() }
    }

    fn reading(&mut self) -> Reading<'a> {
        let entry = Entry::ALL[usize::from(self.byte()) % Entry::ALL.len()];
        let place = self.word();
        Reading { entry, place, source: self.rest }
    }

    fn call(&mut self, code: u8) -> Call<'a> {
        match code {
            0 => Call::ReadHeader(self.reading()),
            1 => Call::ReadAtom(self.word(), self.reading()),
            2 => Call::SkipAtom(self.word(), self.reading()),
            3 => {
                let budget = self.word();
                let Reading { entry, source, .. } = self.reading();
                Call::Walk(budget, entry, source)
            }
            4 => Call::Run(self.word(), self.rest),
            5 => Call::Tally(self.rest),
            6 => Call::WriteHeader(self.byte()),
            7 => Call::WriteAtomHeader(self.byte(), self.word()),
            8 => Call::WriteSpecial(self.word()),
            9 => Call::WriteNone,
            10 => Call::WriteUnit,
            11 => Call::WriteNamed,
            12 => Call::WriteBool(self.byte()),
            FIRST_WRITER..=26 => {
                let writer = Writer::ALL[usize::from(code - FIRST_WRITER)];
                Call::WriteInteger(writer, cut(writer, self.number()))
            }
            27 => Call::WriteVariant(self.parts()),
            28 => Call::WriteBytes(self.rest),
            29 => Call::WriteF32(self.number() as u32),
            30 => Call::WriteF64(self.word()),
            31 => Call::Cast(self.word(), self.parts()),
            32 => Call::AsF32(self.parts()),
            33 => Call::AsF64(self.parts()),
            34 => Call::F32AsF64(self.number() as u32),
            35 => Call::F64AsF32(self.word()),
            36 => Call::F32AsInteger(self.number() as u32),
            37 => Call::F64AsInteger(self.word()),
            _ => Call::Check(self.rest),
        }
    }
}

/// The value of the type that the writer takes, sign extended, of which these are the low bits.
fn cut(writer: Writer, bits: u128) -> u128 {
    let spare = 128 - writer.takes().width();
    if writer.takes().signed() {
        ((bits << spare) as i128 >> spare) as u128
    } else {
        bits << spare >> spare
    }
}

/// The bytes that stand for the call and its room.
pub fn encode(call: &Call<'_>, room: Room) -> Vec<u8> {
    let mut bytes = vec![code(call)];
    put(&mut bytes, room.words as u128);
    put(&mut bytes, room.bytes as u128);
    match *call {
        Call::ReadHeader(reading) => put_reading(&mut bytes, &reading),
        Call::ReadAtom(budget, reading) | Call::SkipAtom(budget, reading) => {
            put(&mut bytes, u128::from(budget));
            put_reading(&mut bytes, &reading);
        }
        Call::Walk(budget, entry, source) => {
            put(&mut bytes, u128::from(budget));
            put_reading(&mut bytes, &Reading { entry, place: 0, source });
        }
        Call::Run(budget, source) => {
            put(&mut bytes, u128::from(budget));
            bytes.extend_from_slice(source);
        }
        Call::Tally(source) | Call::Check(source) | Call::WriteBytes(source) => bytes.extend_from_slice(source),
        Call::WriteNone | Call::WriteUnit | Call::WriteNamed => {}
        Call::WriteHeader(byte) | Call::WriteBool(byte) => bytes.push(byte),
        Call::WriteAtomHeader(kind, arg) => {
            bytes.push(kind);
            put(&mut bytes, u128::from(arg));
        }
        Call::WriteInteger(_, bits) => put(&mut bytes, bits),
        Call::WriteSpecial(word) | Call::WriteF64(word) | Call::F64AsF32(word) | Call::F64AsInteger(word) => {
            put(&mut bytes, u128::from(word));
        }
        Call::WriteF32(bits) | Call::F32AsF64(bits) | Call::F32AsInteger(bits) => put(&mut bytes, u128::from(bits)),
        Call::WriteVariant(parts) | Call::AsF32(parts) | Call::AsF64(parts) => put_parts(&mut bytes, parts),
        Call::Cast(to, parts) => {
            put(&mut bytes, u128::from(to));
            put_parts(&mut bytes, parts);
        }
    }
    bytes
}

/// The call's number, as `Bytes::call` takes it.
const fn code(call: &Call<'_>) -> u8 {
    match call {
        Call::ReadHeader(..) => 0,
        Call::ReadAtom(..) => 1,
        Call::SkipAtom(..) => 2,
        Call::Walk(..) => 3,
        Call::Run(..) => 4,
        Call::Tally(..) => 5,
        Call::WriteHeader(..) => 6,
        Call::WriteAtomHeader(..) => 7,
        Call::WriteSpecial(..) => 8,
        Call::WriteNone => 9,
        Call::WriteUnit => 10,
        Call::WriteNamed => 11,
        Call::WriteBool(..) => 12,
        Call::WriteInteger(writer, _) => FIRST_WRITER + *writer as u8,
        Call::WriteVariant(..) => 27,
        Call::WriteBytes(..) => 28,
        Call::WriteF32(..) => 29,
        Call::WriteF64(..) => 30,
        Call::Cast(..) => 31,
        Call::AsF32(..) => 32,
        Call::AsF64(..) => 33,
        Call::F32AsF64(..) => 34,
        Call::F64AsF32(..) => 35,
        Call::F32AsInteger(..) => 36,
        Call::F64AsInteger(..) => 37,
        Call::Check(..) => 38,
    }
}

fn put(bytes: &mut Vec<u8>, number: u128) {
    if number < u128::from(WIDE) {
        bytes.push(number as u8);
        return;
    }
    let count = (128 - number.leading_zeros()).div_ceil(8) as u8;
    bytes.push(WIDE + count - 1);
    bytes.extend_from_slice(&number.to_le_bytes()[..usize::from(count)]);
}

fn put_parts(bytes: &mut Vec<u8>, parts: Parts) {
    put(bytes, u128::from(parts.variant));
    put(bytes, parts.bits);
}

fn put_reading(bytes: &mut Vec<u8>, reading: &Reading<'_>) {
    bytes.push(reading.entry as u8);
    put(bytes, u128::from(reading.place));
    bytes.extend_from_slice(reading.source);
}
