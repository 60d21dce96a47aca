//! Values at the boundaries, and random values around them.

use super::random::Random;
use crate::wire::{Float, Integer, Variant, Writer};

/// The powers of two at which a width, a cast, a header length or a float's precision ends.
const POWERS: [u32; 20] = [0, 4, 7, 8, 11, 15, 16, 18, 23, 24, 31, 32, 47, 48, 52, 53, 63, 64, 126, 127];

/// The integers of a variant at the edges of every width: each power of two, one less, one more, of either sign.
pub fn integers(variant: Variant) -> Vec<Integer> {
    let mut edges: Vec<u128> = vec![0, u128::MAX];
    for power in POWERS {
        let power = 1_u128 << power;
        for bits in [power - 1, power, power + 1] {
            edges.extend([bits, bits.wrapping_neg()]);
        }
    }
    edges.sort_unstable();
    edges.dedup();
    edges.into_iter().filter(|bits| variant.holds(*bits)).map(|bits| Integer { variant, bits }).collect()
}

/// A number of 64 bits, often near a power of two.
pub fn word(random: &mut Random) -> u64 {
    match random.below(4) {
        0 => random.below(20),
        1 => (1_u64 << random.below(64)).wrapping_add(random.below(5)).wrapping_sub(2),
        2 => u64::MAX - random.below(4),
        _ => random.word() >> random.below(64),
    }
}

/// A value of the variant, often near a power of two.
pub fn value(random: &mut Random, variant: Variant) -> u128 {
    number(random, variant.signed(), variant.width())
}

/// A value for the writer, now and then one outside its width.
pub fn written(random: &mut Random, writer: Writer) -> u128 {
    let width = if random.once_in(16) { writer.takes().width() } else { writer.width() };
    number(random, writer.takes().signed(), width)
}

/// A number of that many bits, often near a power of two.
#[allow(clippy::cast_possible_truncation)]
fn number(random: &mut Random, signed: bool, width: u32) -> u128 {
    let near = 1_u128 << if random.once_in(2) { *random.pick(&POWERS) } else { random.below(128) as u32 };
    let bits = match random.below(4) {
        0 => random.wide(),
        1 => near.wrapping_add(u128::from(random.below(3))).wrapping_sub(1),
        2 => near.wrapping_add(u128::from(random.below(3))).wrapping_sub(1).wrapping_neg(),
        _ => random.wide() >> random.below(128),
    };
    cut(signed, width, bits)
}

/// The number that the low bits are, sign extended if it is signed.
pub fn cut(signed: bool, width: u32, bits: u128) -> u128 {
    let spare = 128 - width;
    if signed {
        ((bits << spare).cast_signed() >> spare).cast_unsigned()
    } else {
        bits << spare >> spare
    }
}

pub fn integer(random: &mut Random) -> Integer {
    let variant = *random.pick(&Variant::ALL);
    Integer { variant, bits: value(random, variant) }
}

/// A binary16 pattern as a binary32 one of the same value; a NaN keeps its bits.
pub fn widened(half: u16) -> u32 {
    let sign = u32::from(half >> 15) << 31;
    let fraction = u32::from(half & 0x3ff);
    let magnitude = match u32::from(half >> 10 & 31) {
        0 => (fraction as f32 / 16_777_216.0).to_bits(),
        31 => 0x7f80_0000 | fraction << 13,
        exponent => (exponent + 112) << 23 | fraction << 13,
    };
    sign | magnitude
}

/// Magnitudes of binary16 at which something changes: zero, the ends of subnormals and normals, infinity, the NaNs.
const HALVES: [u16; 11] = [0x0000, 0x0001, 0x03ff, 0x0400, 0x3800, 0x3c00, 0x7bff, 0x7c00, 0x7c01, 0x7e00, 0x7fff];

/// A binary16 pattern, often at an edge.
#[allow(clippy::cast_possible_truncation)]
pub fn half(random: &mut Random) -> u16 {
    let bits = random.word() as u16;
    if random.once_in(2) {
        random.pick(&HALVES) | bits & 0x8000
    } else {
        bits
    }
}

/// Magnitudes of binary32 at which something changes: the ends of subnormals, of binary16, of `is_zero`, of the
/// lossless integers and of i32, and the NaNs.
const SINGLES: [u32; 26] = [
    0x0000_0000, // 0
    0x007f_ffff, // the largest subnormal
    0x0080_0000, // the smallest normal
    0x3280_0000, // 2^-26
    0x3300_0000, // 2^-25, half the smallest binary16
    0x3380_0000, // 2^-24, the smallest binary16
    0x3400_0000, // 2^-23, the bound of is_zero
    0x387f_c000, // the largest binary16 subnormal
    0x3880_0000, // 2^-14, the smallest binary16 normal
    0x3f00_0000, // 0.5
    0x3f80_0000, // 1
    0x3fc0_0000, // 1.5
    0x4300_0000, // 2^7
    0x4700_0000, // 2^15
    0x477f_e000, // 65504, the largest binary16
    0x477f_f000, // 65520
    0x4780_0000, // 2^16
    0x4b00_0000, // 2^23
    0x4b80_0000, // 2^24
    0x4f00_0000, // 2^31
    0x4f80_0000, // 2^32
    0x5f00_0000, // 2^63
    0x7f7f_ffff, // the largest
    0x7f80_0000, // infinity
    0x7fc0_0000, // a quiet NaN
    0x7fff_ffff, // the last NaN
];

/// The same of binary64, where binary32 has them not.
const DOUBLES: [u64; 22] = [
    0x000f_ffff_ffff_ffff, // the largest subnormal
    0x0010_0000_0000_0000, // the smallest normal
    0x3690_0000_0000_0000, // 2^-150, half the smallest binary32
    0x36a0_0000_0000_0000, // 2^-149, the smallest binary32
    0x380f_ffff_c000_0000, // the largest binary32 subnormal
    0x3810_0000_0000_0000, // 2^-126, the smallest binary32 normal
    0x3c90_0000_0000_0000, // 2^-54
    0x3ca0_0000_0000_0000, // 2^-53
    0x3cb0_0000_0000_0000, // 2^-52, the bound of is_zero
    0x3fd5_5555_5555_5555, // a third
    0x41df_ffff_ffc0_0000, // 2^31 - 1
    0x41ef_ffff_ffe0_0000, // 2^32 - 1
    0x4330_0000_0000_0000, // 2^52
    0x4340_0000_0000_0000, // 2^53
    0x43e0_0000_0000_0000, // 2^63
    0x43f0_0000_0000_0000, // 2^64
    0x47ef_ffff_e000_0000, // the largest binary32
    0x47ef_ffff_f000_0000, // the first that rounds to infinity
    0x7e37_e43c_8800_759c, // 1e300
    0x7ff0_0000_0000_0000, // infinity
    0x7ff8_0000_0000_0000, // a quiet NaN
    0x7fff_ffff_ffff_ffff, // the last NaN
];

/// Each magnitude, the pattern before and the one after, of both signs.
pub fn singles() -> Vec<u32> {
    let mut edges: Vec<u32> = SINGLES.iter().flat_map(|bits| [bits.saturating_sub(1), *bits, bits + 1]).collect();
    edges.retain(|bits| *bits <= i32::MAX as u32);
    edges.sort_unstable();
    edges.dedup();
    let negative: Vec<u32> = edges.iter().map(|bits| bits | 1 << 31).collect();
    edges.extend(negative);
    edges
}

/// The edges of binary64, and those of binary32 as binary64.
pub fn doubles() -> Vec<u64> {
    let wide = SINGLES.iter().map(|bits| f64::from(f32::from_bits(*bits)).to_bits());
    let mut edges: Vec<u64> = wide.chain(DOUBLES).flat_map(|bits| [bits.saturating_sub(1), bits, bits + 1]).collect();
    edges.retain(|bits| *bits <= i64::MAX as u64);
    edges.sort_unstable();
    edges.dedup();
    let negative: Vec<u64> = edges.iter().map(|bits| bits | 1 << 63).collect();
    edges.extend(negative);
    edges
}

/// All edges of both widths.
pub fn floats() -> Vec<Float> {
    let singles = singles().into_iter().map(Float::F32);
    singles.chain(doubles().into_iter().map(Float::F64)).collect()
}

/// A binary32 near something that matters.
#[allow(clippy::cast_possible_truncation, clippy::cast_precision_loss)]
pub fn single(random: &mut Random) -> u32 {
    let sign = (random.below(2) as u32) << 31;
    match random.below(6) {
        0 => random.word() as u32,
        1 => random.pick(&SINGLES).wrapping_add(random.below(7) as u32).wrapping_sub(3) ^ sign,
        2 => widened(random.word() as u16),
        3 => widened(random.word() as u16) ^ 1 << random.below(16),
        4 => ((random.word() as i64 >> random.below(64)) as f32).to_bits(),
        _ => ((random.word() as i32 >> random.below(32)) as f32 / 2.0 + tiny(random) as f32).to_bits(),
    }
}

/// A binary64 near something that matters.
#[allow(clippy::cast_possible_truncation, clippy::cast_precision_loss)]
pub fn double(random: &mut Random) -> u64 {
    let sign = random.below(2) << 63;
    match random.below(6) {
        0 => random.word(),
        1 => random.pick(&DOUBLES).wrapping_add(random.below(7)).wrapping_sub(3) ^ sign,
        2 => f64::from(f32::from_bits(single(random))).to_bits(),
        3 => f64::from(f32::from_bits(single(random))).to_bits() ^ 1 << random.below(32),
        4 => ((random.word() as i64 >> random.below(64)) as f64).to_bits(),
        _ => ((random.word() as i64 >> random.below(64)) as f64 / 2.0 + tiny(random)).to_bits(),
    }
}

/// Nothing, or a power of two from 2^-56 to 2^-1.
fn tiny(random: &mut Random) -> f64 {
    if random.once_in(2) {
        return 0.0;
    }
    f64::from_bits(0x3ff0_0000_0000_0000 - ((random.below(56) + 1) << 52))
}

pub fn float(random: &mut Random) -> Float {
    if random.once_in(2) {
        Float::F32(single(random))
    } else {
        Float::F64(double(random))
    }
}

/// Any other float, or one of the same or nearly the same value at either width.
#[allow(clippy::cast_possible_truncation)]
pub fn other_float(random: &mut Random, first: Float) -> Float {
    match (random.below(4), first) {
        (0, _) => float(random),
        (1, Float::F32(bits)) => Float::F32(bits ^ random.below(2) as u32),
        (1, Float::F64(bits)) => Float::F64(bits ^ random.below(2)),
        (_, Float::F32(bits)) => Float::F64(f64::from(f32::from_bits(bits)).to_bits() ^ random.below(2)),
        (_, Float::F64(bits)) => Float::F32((f64::from_bits(bits) as f32).to_bits()),
    }
}
