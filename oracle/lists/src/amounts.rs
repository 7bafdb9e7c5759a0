//! Where floats are drawn from.

use crate::bits;
use crate::draw::Draw;

/// Floats that sit on or beside a line somewhere in the texts or in IEEE 754.
pub const TELLING: [f32; 33] = [
    0.0,
    -0.0,
    f32::from_bits(0x0000_0001), // smallest subnormal
    f32::from_bits(0x8000_0001),
    f32::from_bits(0x007f_ffff), // largest subnormal
    f32::from_bits(0x807f_ffff),
    f32::MIN_POSITIVE,
    -f32::MIN_POSITIVE,
    f32::from_bits(0x33ff_ffff), // EPSILON is 0x34000000
    f32::EPSILON,
    f32::from_bits(0x3400_0001),
    -f32::EPSILON,
    f32::from_bits(0xb400_0001),
    f32::from_bits(0x3480_0000), // 2^-22
    0.5,
    1.0,
    -1.0,
    10.0,
    1000.0,
    8000.0,
    8388.0,
    8389.0,
    8390.0,
    10000.0,
    16_777_215.0,
    16_777_216.0, // 2^24
    16_777_218.0,
    -16_777_216.0,
    f32::MAX,
    f32::MIN,
    f32::INFINITY,
    f32::NEG_INFINITY,
    f32::from_bits(bits::NAN),
];

pub fn telling(draw: &mut Draw) -> f32 {
    draw.pick(&TELLING)
}

/// Any bit pattern, NaNs made one.
pub fn pattern(draw: &mut Draw) -> f32 {
    bits::one_nan(f32::from_bits(draw.bits() as u32))
}

/// A whole number 0 to `most`.
pub fn whole(draw: &mut Draw, most: usize) -> f32 {
    draw.within(0, most) as f32
}

/// `x` moved by 0 to 3 units in the last place, up or down.
pub fn beside(draw: &mut Draw, x: f32) -> f32 {
    let up = draw.once_in(2);
    let mut near = x;
    for _ in 0..draw.below(4) {
        near = if up { near.next_up() } else { near.next_down() };
    }
    near
}

/// A float of any kind: whole, telling, beside a telling one, or any bits.
pub fn any(draw: &mut Draw) -> f32 {
    match draw.below(8) {
        0..=2 => whole(draw, 200),
        3 => whole(draw, 20_000),
        4..=5 => telling(draw),
        6 => {
            let x = telling(draw);
            beside(draw, x)
        }
        _ => pattern(draw),
    }
}
