//! The request codes. Where a code says "onward", the codes from it on go by the order of `Variant` or `Writer`.

pub const KIND_FROM_U8: u8 = 0x01;
pub const SPECIAL_TRY_FROM: u8 = 0x02;

pub const READ_ATOM_HEADER: u8 = 0x10;
pub const READ_HEADER: u8 = 0x11;
pub const WRITE_ATOM_HEADER: u8 = 0x12;
pub const WRITE_HEADER: u8 = 0x13;

pub const READ_ATOM: u8 = 0x20;
pub const INTEGER_READ_FROM: u8 = 0x21;
pub const FLOAT_READ_FROM: u8 = 0x22;
pub const BUFFERED_READ_BYTES: u8 = 0x23;
pub const READ: u8 = 0x24;
pub const READ_EXACT: u8 = 0x25;
pub const REMAINING: u8 = 0x26;
pub const UPDATE_BUDGET: u8 = 0x27;
pub const IN_MEMORY_INT_SIZE: u8 = 0x28;
pub const RUN: u8 = 0x29;
pub const TALLY: u8 = 0x2a;
pub const SEQUENCE: u8 = 0x2b;
pub const STEP: u8 = 0x2c;
pub const CHECK: u8 = 0x2d;

/// Onward to 0x39, by variant.
pub const INTEGER_AS: u8 = 0x30;
pub const INTEGER_AS_F32: u8 = 0x3a;
pub const INTEGER_AS_F64: u8 = 0x3b;
pub const INTEGER_AS_FLOAT: u8 = 0x3c;
pub const INTEGER_IS_ZERO: u8 = 0x3d;
pub const INTEGER_WRITE_TO: u8 = 0x3e;
pub const INTEGER_EQUAL: u8 = 0x3f;

/// Onward to 0x49, by variant.
pub const INTEGER_FROM: u8 = 0x40;

pub const FLOAT_IS_ZERO: u8 = 0x50;
pub const FLOAT_AS_F32: u8 = 0x51;
pub const FLOAT_AS_F64: u8 = 0x52;
pub const FLOAT_AS_INTEGER: u8 = 0x53;
pub const FLOAT_WRITE_TO: u8 = 0x54;
pub const FLOAT_EQUAL: u8 = 0x55;

/// Onward to 0x6d, by writer.
pub const WRITE_INTEGER: u8 = 0x60;
pub const WRITE_SPECIAL: u8 = 0x70;
pub const WRITE_NONE: u8 = 0x71;
pub const WRITE_UNIT: u8 = 0x72;
pub const WRITE_NAMED: u8 = 0x73;
pub const WRITE_BOOL: u8 = 0x74;
pub const WRITE_BYTES: u8 = 0x75;
pub const WRITE_F32: u8 = 0x76;
pub const WRITE_F64: u8 = 0x77;

/// Every code there is.
pub fn all() -> impl Iterator<Item = u8> {
    [0x01..=0x02, 0x10..=0x13, 0x20..=0x2d, 0x30..=0x49, 0x50..=0x55, 0x60..=0x6d, 0x70..=0x77].into_iter().flatten()
}
