//! The bits of a float as lists show them: every NaN is one and the same.

/// The one NaN that lists know: its sign and payload are never told apart.
pub const NAN: u32 = 0x7fc0_0000;

pub fn of(x: f32) -> u32 {
    if x.is_nan() { NAN } else { x.to_bits() }
}

/// `x`, or the one NaN where a sum or difference gave another.
pub fn one_nan(x: f32) -> f32 {
    f32::from_bits(of(x))
}
