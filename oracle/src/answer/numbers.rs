//! Numbers, from the wire's form to the original's and back.

use crate::format::{Float, InnerFloat, InnerInteger, Integer};
use crate::wire::{self, Variant};

/// The original's integer of that variant, made without its `From`.
#[allow(clippy::cast_possible_truncation, clippy::cast_possible_wrap)]
pub fn integer(integer: wire::Integer) -> Integer {
    let bits = integer.bits;
    Integer(match integer.variant {
        Variant::I8 => InnerInteger::I8(bits as i8),
        Variant::I16 => InnerInteger::I16(bits as i16),
        Variant::I32 => InnerInteger::I32(bits as i32),
        Variant::I64 => InnerInteger::I64(bits as i64),
        Variant::I128 => InnerInteger::I128(bits as i128),
        Variant::U8 => InnerInteger::U8(bits as u8),
        Variant::U16 => InnerInteger::U16(bits as u16),
        Variant::U32 => InnerInteger::U32(bits as u32),
        Variant::U64 => InnerInteger::U64(bits as u64),
        Variant::U128 => InnerInteger::U128(bits),
    })
}

/// The variant and the sign extended bits of the original's integer.
#[allow(clippy::cast_sign_loss)]
pub fn told_integer(integer: Integer) -> wire::Integer {
    let (variant, bits) = match integer.0 {
        InnerInteger::I8(value) => (Variant::I8, value as u128),
        InnerInteger::I16(value) => (Variant::I16, value as u128),
        InnerInteger::I32(value) => (Variant::I32, value as u128),
        InnerInteger::I64(value) => (Variant::I64, value as u128),
        InnerInteger::I128(value) => (Variant::I128, value as u128),
        InnerInteger::U8(value) => (Variant::U8, u128::from(value)),
        InnerInteger::U16(value) => (Variant::U16, u128::from(value)),
        InnerInteger::U32(value) => (Variant::U32, u128::from(value)),
        InnerInteger::U64(value) => (Variant::U64, u128::from(value)),
        InnerInteger::U128(value) => (Variant::U128, value),
    };
    wire::Integer { variant, bits }
}

pub fn float(float: wire::Float) -> Float {
    Float(match float {
        wire::Float::F32(bits) => InnerFloat::F32(f32::from_bits(bits)),
        wire::Float::F64(bits) => InnerFloat::F64(f64::from_bits(bits)),
    })
}

pub fn told_float(float: Float) -> wire::Float {
    match float.0 {
        InnerFloat::F32(value) => wire::Float::F32(value.to_bits()),
        InnerFloat::F64(value) => wire::Float::F64(value.to_bits()),
    }
}
