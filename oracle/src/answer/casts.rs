//! Casts, `From`s, equalities and zero tests.

use super::numbers::{float, integer, told_float, told_integer};
use super::plain;
use crate::format::{Float, Integer};
use crate::wire::{Answer, Request, Value, Variant};
use crate::Error;

pub fn answer_cast(request: &Request<'_>) -> Answer<'static> {
    plain(match *request {
        Request::IntegerAs(variant, value) => cast(variant, integer(value)).map(Value::Wide),
        Request::IntegerAsF32(value) => integer(value).as_f32().map(single),
        Request::IntegerAsF64(value) => integer(value).as_f64().map(double),
        Request::IntegerAsFloat(value) => integer(value).as_float().map(told_float).map(Value::Float),
        Request::IntegerIsZero(value) => Ok(truth(integer(value).is_zero())),
        Request::IntegerEqual(left, right) => Ok(truth(integer(left) == integer(right))),
        Request::IntegerFrom(variant, bits) => Ok(Value::Integer(told_integer(from(variant, bits)))),
        Request::FloatIsZero(value) => Ok(truth(float(value).is_zero())),
        Request::FloatAsF32(value) => float(value).as_f32().map(single),
        Request::FloatAsF64(value) => Ok(double(as_f64(&float(value)))),
        Request::FloatAsInteger(value) => float(value).as_integer().map(told_integer).map(Value::Integer),
        Request::FloatEqual(left, right) => Ok(truth(float(left) == float(right))),
        _ => unreachable!("every other code is answered elsewhere"),
    })
}

/// `as_i8` and its kin; the answer sign extended.
#[allow(clippy::cast_sign_loss)]
fn cast(variant: Variant, value: Integer) -> Result<u128, Error> {
    match variant {
        Variant::I8 => value.as_i8().map(|value| value as u128),
        Variant::I16 => value.as_i16().map(|value| value as u128),
        Variant::I32 => value.as_i32().map(|value| value as u128),
        Variant::I64 => value.as_i64().map(|value| value as u128),
        Variant::I128 => value.as_i128().map(|value| value as u128),
        Variant::U8 => value.as_u8().map(u128::from),
        Variant::U16 => value.as_u16().map(u128::from),
        Variant::U32 => value.as_u32().map(u128::from),
        Variant::U64 => value.as_u64().map(u128::from),
        Variant::U128 => value.as_u128(),
    }
}

/// The `From` of the variant's type.
#[allow(clippy::cast_possible_truncation, clippy::cast_possible_wrap)]
fn from(variant: Variant, bits: u128) -> Integer {
    match variant {
        Variant::I8 => Integer::from(bits as i8),
        Variant::I16 => Integer::from(bits as i16),
        Variant::I32 => Integer::from(bits as i32),
        Variant::I64 => Integer::from(bits as i64),
        Variant::I128 => Integer::from(bits as i128),
        Variant::U8 => Integer::from(bits as u8),
        Variant::U16 => Integer::from(bits as u16),
        Variant::U32 => Integer::from(bits as u32),
        Variant::U64 => Integer::from(bits as u64),
        Variant::U128 => Integer::from(bits),
    }
}

/// `as_f64`, kept from being computed by the compiler, whose NaNs may differ from the machine's.
#[inline(never)]
fn as_f64(value: &Float) -> f64 {
    value.as_f64()
}

fn truth(boolean: bool) -> Value<'static> {
    Value::Word(u64::from(boolean))
}

fn single(value: f32) -> Value<'static> {
    Value::Word(u64::from(value.to_bits()))
}

fn double(value: f64) -> Value<'static> {
    Value::Word(value.to_bits())
}
