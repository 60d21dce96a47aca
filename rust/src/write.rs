use crate::calls::{self, Answer};
use crate::values::answered;
use crate::{Float, Integer, Kind, Refusal, Special};

/// How many bytes a writer wrote.
fn written(answer: Answer) -> Result<usize, Refusal> {
    answered(answer, |w| w[0] as usize)
}

/// Writes the signature with a version.
///
/// ```
/// let mut out = [0; 4];
/// assert_eq!(dimewagon::write_header(&mut out, 1), Ok(4));
/// assert_eq!(&out, b"Pot\x01");
/// ```
pub fn write_header(out: &mut [u8], version: u8) -> Result<usize, Refusal> {
    written(calls::pot_write_header(out, version))
}

/// Writes an atom header: of a sequence, a map or a symbol, the whole atom.
///
/// ```
/// let mut out = [0; 10];
/// let count = dimewagon::write_atom_header(&mut out, dimewagon::Kind::UInt, 16)?;
/// assert_eq!(out[..count], [0x50, 0x01]);
/// # Ok::<(), dimewagon::Refusal>(())
/// ```
pub fn write_atom_header(out: &mut [u8], kind: Kind, arg: u64) -> Result<usize, Refusal> {
    written(calls::pot_write_atom_header(out, kind as u8, arg))
}

/// Writes a special.
///
/// ```
/// let mut out = [0; 1];
/// assert_eq!(dimewagon::write_special(&mut out, dimewagon::Special::DynamicMap), Ok(1));
/// assert_eq!(out, [0x05]);
/// ```
pub fn write_special(out: &mut [u8], value: Special) -> Result<usize, Refusal> {
    written(calls::pot_write_special(out, value as u64))
}

/// Writes a string. Nothing is written where there is no room for all of it.
///
/// ```
/// let mut out = [9; 4];
/// assert_eq!(dimewagon::write_bytes(&mut out, b"abcd").unwrap_err().number(), 9);
/// assert_eq!(out, [9; 4]);
/// assert_eq!(dimewagon::write_bytes(&mut out, b"ab"), Ok(3));
/// assert_eq!(out, [0xE2, 0x61, 0x62, 9]);
/// ```
pub fn write_bytes(out: &mut [u8], value: &[u8]) -> Result<usize, Refusal> {
    written(calls::pot_write_bytes(out, value))
}

/// Writes an integer in the fewest bytes.
///
/// ```
/// let mut out = [0; 17];
/// let count = dimewagon::write_integer(&mut out, dimewagon::Integer::I16(-129))?;
/// assert_eq!(out[..count], [0x21, 0x7F, 0xFF]);
/// # Ok::<(), dimewagon::Refusal>(())
/// ```
pub fn write_integer(out: &mut [u8], value: Integer) -> Result<usize, Refusal> {
    let (variant, low, high) = value.words();
    written(calls::pot_write_integer(out, variant, low, high))
}

/// Writes a float in the fewest bytes; a NaN at its own width with its own bits.
///
/// ```
/// let mut out = [0; 9];
/// let count = dimewagon::write_float(&mut out, dimewagon::Float::F64(1.5))?;
/// assert_eq!(out[..count], [0x61, 0x00, 0x3E]);
/// # Ok::<(), dimewagon::Refusal>(())
/// ```
pub fn write_float(out: &mut [u8], value: Float) -> Result<usize, Refusal> {
    match value {
        Float::F32(value) => write_f32(out, value),
        Float::F64(value) => write_f64(out, value),
    }
}

macro_rules! specials {
    ($($name:ident $function:ident $what:literal $byte:literal)*) => {
        $(
            #[doc = concat!("Writes ", $what, ".")]
            ///
            /// ```
            /// let mut out = [9; 1];
            #[doc = concat!("assert_eq!(dimewagon::", stringify!($name), "(&mut out), Ok(1));")]
            #[doc = concat!("assert_eq!(out, [", $byte, "]);")]
            /// ```
            pub fn $name(out: &mut [u8]) -> Result<usize, Refusal> {
                written(calls::$function(out))
            }
        )*
    };
}

specials! {
    write_none pot_write_none "None" 0
    write_unit pot_write_unit "the unit" 1
    write_named pot_write_named "the mark of a named value" 4
}

macro_rules! numbers {
    ($($name:ident($value:ident: $type:ident => $($number:expr),+) $function:ident $what:literal $example:literal $bytes:literal)*) => {
        $(
            #[doc = concat!("Writes ", $what, ".")]
            ///
            /// ```
            /// let mut out = [0; 17];
            #[doc = concat!("let count = dimewagon::", stringify!($name), "(&mut out, ", $example, ")?;")]
            #[doc = concat!("assert_eq!(out[..count], ", $bytes, ");")]
            /// # Ok::<(), dimewagon::Refusal>(())
            /// ```
            pub fn $name(out: &mut [u8], $value: $type) -> Result<usize, Refusal> {
                written(calls::$function(out, $($number),+))
            }
        )*
    };
}

numbers! {
    write_bool(value: bool => value.into()) pot_write_bool
        "a boolean" "true" "[0x03]"
    write_i8(value: i8 => value) pot_write_i8
        "an `i8`" "-1" "[0x20, 0xFF]"
    write_i16(value: i16 => value) pot_write_i16
        "an `i16` in the fewest bytes" "-129" "[0x21, 0x7F, 0xFF]"
    write_i24(value: i32 => value) pot_write_i24
        "a signed value of at most 24 bits in the fewest bytes; another is refused by 8" "-8388608" "[0x22, 0, 0, 0x80]"
    write_i32(value: i32 => value) pot_write_i32
        "an `i32` in the fewest bytes" "8388608" "[0x23, 0, 0, 0x80, 0]"
    write_i48(value: i64 => value) pot_write_i48
        "a signed value of at most 48 bits in the fewest bytes; another is refused by 8" "-(1 << 47)" "[0x25, 0, 0, 0, 0, 0, 0x80]"
    write_i64(value: i64 => value) pot_write_i64
        "an `i64` in the fewest bytes" "i64::MIN" "[0x27, 0, 0, 0, 0, 0, 0, 0, 0x80]"
    write_i128(value: i128 => value as u64, (value >> 64) as u64) pot_write_i128
        "an `i128` in the fewest bytes" "-129" "[0x21, 0x7F, 0xFF]"
    write_u8(value: u8 => value) pot_write_u8
        "a `u8`" "5" "[0x40, 5]"
    write_u16(value: u16 => value) pot_write_u16
        "a `u16` in the fewest bytes" "300" "[0x41, 0x2C, 0x01]"
    write_u24(value: u32 => value) pot_write_u24
        "an unsigned value of at most 24 bits in the fewest bytes; another is refused by 8" "70000" "[0x42, 0x70, 0x11, 0x01]"
    write_u32(value: u32 => value) pot_write_u32
        "a `u32` in the fewest bytes" "300" "[0x41, 0x2C, 0x01]"
    write_u48(value: u64 => value) pot_write_u48
        "an unsigned value of at most 48 bits in the fewest bytes; another is refused by 8" "1 << 40" "[0x45, 0, 0, 0, 0, 0, 1]"
    write_u64(value: u64 => value) pot_write_u64
        "a `u64` in the fewest bytes" "1 << 56" "[0x47, 0, 0, 0, 0, 0, 0, 0, 1]"
    write_u128(value: u128 => value as u64, (value >> 64) as u64) pot_write_u128
        "a `u128` in the fewest bytes" "1 << 64" "[0x4F, 0, 0, 0, 0, 0, 0, 0, 0, 1, 0, 0, 0, 0, 0, 0, 0]"
    write_f32(value: f32 => value.to_bits()) pot_write_f32
        "an `f32` in the fewest bytes; a NaN with its own bits" "65504.0" "[0x61, 0xFF, 0x7B]"
    write_f64(value: f64 => value.to_bits()) pot_write_f64
        "an `f64` in the fewest bytes; a NaN with its own bits" "65520.0" "[0x63, 0, 0xF0, 0x7F, 0x47]"
}
