//! Amounts for the bets of a table, many of them on the lines that a rule draws.

use crate::amounts;
use crate::bits;
use crate::draw::Draw;
use crate::table::{Table, place};

/// What a bet of the seat to act is measured by.
struct Lines {
    own: f32,
    stack: f32,
    bet: f32,
    min_raise: f32,
}

impl Lines {
    fn of(table: &Table) -> Self {
        let seat = table.get(place::TO_ACT_IDX).min(15);
        Lines {
            own: table.float(place::ROUND_BETS + seat),
            stack: table.float(place::STACKS + seat),
            bet: table.float(place::ROUND_BET),
            min_raise: table.float(place::MIN_RAISE),
        }
    }
}

pub fn voluntary(draw: &mut Draw, table: &Table) -> f32 {
    match draw.below(16) {
        0..=2 => amounts::whole(draw, 200),
        3..=13 => on_a_line(draw, &Lines::of(table)),
        14 => amounts::telling(draw),
        _ => amounts::pattern(draw),
    }
}

/// The bet's own lines and a raise that is half too small; a tolerance below or
/// above, and a few units aside.
fn on_a_line(draw: &mut Draw, lines: &Lines) -> f32 {
    let raised = lines.bet + lines.min_raise;
    let half = lines.bet + lines.min_raise / 2.0;
    let all_in = lines.own + lines.stack;
    let line = draw.pick(&[lines.own, lines.bet, lines.bet, raised, raised, half, all_in]);
    let tolerance = line.abs().max(lines.bet.abs()).max(1.0) * f32::EPSILON * 1000.0;
    let line = match draw.below(5) {
        0 => line - tolerance,
        1 => line + tolerance,
        _ => line,
    };
    bits::one_nan(amounts::beside(draw, line))
}

/// A raise that play would make: the smallest one or some more.
pub fn raise(draw: &mut Draw, table: &Table) -> f32 {
    let lines = Lines::of(table);
    let more = draw.pick(&[0.0, 0.0, 1.0, 2.0]) * amounts::whole(draw, 40);
    bits::one_nan(lines.bet + lines.min_raise + more)
}

pub fn forced(draw: &mut Draw, table: &Table) -> f32 {
    let lines = Lines::of(table);
    match draw.below(8) {
        0 => 0.0,
        1..=2 => amounts::whole(draw, 20),
        3 => lines.stack,
        4 => bits::one_nan(amounts::beside(draw, lines.stack)),
        5 => bits::one_nan(lines.bet - lines.own),
        _ => amounts::any(draw),
    }
}
