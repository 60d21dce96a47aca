//! Writers: what they write, and that they count it right.

use std::io;

use super::numbers::{float, integer};
use super::{kind, plain, Oracle};
use crate::format::{
    write_atom_header, write_bool, write_bytes, write_f32, write_f64, write_header, write_i128, write_i16, write_i24,
    write_i32, write_i48, write_i64, write_i8, write_named, write_none, write_special, write_u128, write_u16,
    write_u24, write_u32, write_u48, write_u64, write_u8, write_unit, Special,
};
use crate::wire::{Answer, Request, Skip, Value, Writer};

impl Oracle {
    pub(super) fn answer_writer<'a>(&'a mut self, request: &Request<'_>) -> Answer<'a> {
        if outside_width(request) {
            return Answer::Skipped(Skip::Width);
        }
        self.written.clear();
        let count = write(&mut self.written, request).expect("a Vec takes every byte");
        assert_eq!(count, self.written.len(), "a writer counts what it writes");
        plain(Ok(Value::Bytes(&self.written)))
    }
}

/// The 24 and 48 bit writers cut or panic outside their width, which is outside the domain.
fn outside_width(request: &Request<'_>) -> bool {
    matches!(*request, Request::WriteInteger(writer, bits) if !writer.holds(bits))
}

/// Appends what the writer that the request names writes.
pub fn write(written: &mut Vec<u8>, request: &Request<'_>) -> io::Result<usize> {
    match *request {
        Request::WriteAtomHeader(code, arg) => write_atom_header(written, kind(code), arg),
        Request::WriteHeader(version) => write_header(written, version),
        Request::IntegerWriteTo(value) => integer(value).write_to(written),
        Request::FloatWriteTo(value) => float(value).write_to(written),
        Request::WriteInteger(writer, bits) => write_integer(written, writer, bits),
        Request::WriteSpecial(code) => write_special(written, special(code)),
        Request::WriteNone => write_none(written),
        Request::WriteUnit => write_unit(written),
        Request::WriteNamed => write_named(written),
        Request::WriteBool(boolean) => write_bool(written, boolean),
        Request::WriteBytes(bytes) => write_bytes(written, bytes),
        Request::WriteF32(bits) => write_f32(written, f32::from_bits(bits)),
        Request::WriteF64(bits) => write_f64(written, f64::from_bits(bits)),
        _ => unreachable!("every other code is answered elsewhere"),
    }
}

#[allow(clippy::cast_possible_truncation, clippy::cast_possible_wrap)]
fn write_integer(written: &mut Vec<u8>, writer: Writer, bits: u128) -> io::Result<usize> {
    match writer {
        Writer::I8 => write_i8(written, bits as i8),
        Writer::I16 => write_i16(written, bits as i16),
        Writer::I24 => write_i24(written, bits as i32),
        Writer::I32 => write_i32(written, bits as i32),
        Writer::I48 => write_i48(written, bits as i64),
        Writer::I64 => write_i64(written, bits as i64),
        Writer::I128 => write_i128(written, bits as i128),
        Writer::U8 => write_u8(written, bits as u8),
        Writer::U16 => write_u16(written, bits as u16),
        Writer::U24 => write_u24(written, bits as u32),
        Writer::U32 => write_u32(written, bits as u32),
        Writer::U48 => write_u48(written, bits as u64),
        Writer::U64 => write_u64(written, bits as u64),
        Writer::U128 => write_u128(written, bits),
    }
}

fn special(code: u8) -> Special {
    Special::try_from(u64::from(code)).unwrap_or_else(|_| unreachable!("the wire takes specials from 0 to 6"))
}
