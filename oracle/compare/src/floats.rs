//! The helpers under the betting rules.

use approx::abs_diff_eq;
use lists::amounts::{self, TELLING};
use lists::draw::Draw;
use peatcloak::parts;

use crate::difference::Difference;
use crate::same;
use crate::tally::{Kind, Tally};

/// The telling floats crossed with each other.
pub fn telling(tally: &mut Tally) -> Result<(), Box<Difference>> {
    for a in TELLING {
        TELLING.into_iter().try_for_each(|b| of_two(a, b, tally))?;
        of_one(a, tally)?;
    }
    Ok(())
}

/// Any two, NaNs of any sign and payload among them; every other pair is close together.
pub fn any(draw: &mut Draw, tally: &mut Tally) -> Result<(), Box<Difference>> {
    let a = wide(draw);
    let b = if draw.once_in(2) { amounts::beside(draw, a) } else { wide(draw) };
    of_two(a, b, tally)?;
    of_one(a, tally)
}

fn wide(draw: &mut Draw) -> f32 {
    match draw.below(4) {
        0..=1 => f32::from_bits(draw.bits() as u32),
        2 => f32::from_bits(draw.bits() as u32 | f32::INFINITY.to_bits()),
        _ => amounts::any(draw),
    }
}

fn of_two(a: f32, b: f32, tally: &mut Tally) -> Result<(), Box<Difference>> {
    is(parts::peatcloak_max(a, b), a.max(b), "max", [a, b])?;
    is(parts::peatcloak_min(a, b), a.min(b), "min", [a, b])?;
    tally.count_many(Kind::Floats, 2);
    Ok(())
}

fn of_one(x: f32, tally: &mut Tally) -> Result<(), Box<Difference>> {
    // A NaN has no sign here (docs/DIFFERENCES.md, D17).
    let negative = !x.is_nan() && x.is_sign_negative();
    is(parts::peatcloak_tol(x), x * f32::EPSILON * 1000.0, "tolerance", [x])?;
    is(parts::peatcloak_abs(x), x.abs(), "abs", [x])?;
    holds(parts::peatcloak_is_sign_negative(x), negative, "is_sign_negative", x)?;
    holds(parts::peatcloak_is_nan(x), x.is_nan(), "is_nan", x)?;
    holds(parts::peatcloak_is_near_zero(x), abs_diff_eq!(x, 0.0), "abs_diff_eq with 0", x)?;
    tally.count_many(Kind::Floats, 5);
    Ok(())
}

fn is<const N: usize>(
    ours: f32,
    theirs: f32,
    call: &str,
    of: [f32; N],
) -> Result<(), Box<Difference>> {
    if same::float(ours, theirs) {
        return Ok(());
    }
    let of = of.map(|x| format!("{x} ({:08x})", x.to_bits())).join(", ");
    let (a, b) = (ours.to_bits(), theirs.to_bits());
    Err(Difference::new(format!(
        "{call} of {of}\nours  {ours} ({a:08x})\nRust  {theirs} ({b:08x})\n"
    )))
}

fn holds(ours: u32, theirs: bool, call: &str, x: f32) -> Result<(), Box<Difference>> {
    if ours == theirs.into() {
        return Ok(());
    }
    Err(Difference::new(format!(
        "{call} of {x} ({:08x})\nours  {ours}\nRust  {theirs}\n",
        x.to_bits()
    )))
}
