//! The kind `floats`: the helpers under the betting rules.

use std::io;

use approx::abs_diff_eq;

use crate::amounts::{self, TELLING};
use crate::differences;
use crate::draw::Draw;
use crate::line::Line;
use crate::list::List;

pub fn write(list: &mut List, draw: &mut Draw, count: u64) -> io::Result<()> {
    list.put_all(differences::floats())?;
    for a in TELLING {
        for b in TELLING {
            of_two(list, a, b)?;
        }
    }
    for x in TELLING {
        of_one(list, x)?;
    }
    for _ in 0..count {
        let a = wide(draw);
        // Every other pair is close together, where an order is easily got wrong.
        let b = if draw.once_in(2) { amounts::beside(draw, a) } else { wide(draw) };
        of_two(list, a, b)?;
        of_one(list, a)?;
    }
    Ok(())
}

fn wide(draw: &mut Draw) -> f32 {
    if draw.once_in(2) { amounts::pattern(draw) } else { amounts::any(draw) }
}

/// Of two zeros the Rust may give either; here the answer is the first.
fn of_two(list: &mut List, a: f32, b: f32) -> io::Result<()> {
    let (larger, smaller) = if a == b { (a, a) } else { (a.max(b), a.min(b)) };
    list.put(Line::new('x').float(a).float(b).answer().float(larger))?;
    list.put(Line::new('m').float(a).float(b).answer().float(smaller))
}

fn of_one(list: &mut List, x: f32) -> io::Result<()> {
    list.put(Line::new('t').float(x).answer().float(x * f32::EPSILON * 1000.0))?;
    list.put(Line::new('a').float(x).answer().float(x.abs()))?;
    list.put(Line::new('s').float(x).answer().flag(x.is_sign_negative()))?;
    list.put(Line::new('n').float(x).answer().flag(x.is_nan()))?;
    list.put(Line::new('z').float(x).answer().flag(abs_diff_eq!(x, 0.0)))
}
