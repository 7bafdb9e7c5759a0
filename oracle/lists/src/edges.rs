//! Bets around one line, from just below it upward until one is accepted. A
//! refused bet leaves the table, so the list shows both sides of the line.

use std::io;

use crate::amounts;
use crate::draw::Draw;
use crate::line::Line;
use crate::list::List;
use crate::step::Step;
use crate::table::{Table, place};
use crate::tables;

/// Rounding moves a line by a few units in the last place.
const UNITS: usize = 4;

/// Amounts that are tried, one unit apart.
pub const TRIES: usize = 2 * UNITS + 1;

/// A table, and the first amount to be tried.
pub fn drawn(draw: &mut Draw) -> (Table, f32) {
    let edge = Edge::draw(draw);
    let table = edge.table(draw);
    (table, (0..UNITS).fold(edge.line, |amount, _| amount.next_down()))
}

pub fn write(list: &mut List, draw: &mut Draw) -> io::Result<()> {
    let (mut table, mut amount) = drawn(draw);
    list.put(Line::new('T').new_table(&table))?;
    let bets = table.get(place::TOTAL_BET_COUNT);
    for _ in 0..TRIES {
        list.put(Step::Bet(amount).take(&mut table))?;
        if table.get(place::TOTAL_BET_COUNT) > bets {
            break;
        }
        amount = amount.next_up();
    }
    Ok(())
}

/// What the seat to act meets, and the amount from which on it may bet.
struct Edge {
    own: f32,
    stack: f32,
    bet: f32,
    min_raise: f32,
    line: f32,
}

impl Edge {
    fn draw(draw: &mut Draw) -> Self {
        match draw.below(10) {
            0..=1 => Edge::calls_self(draw),
            2..=3 => Edge::calls(draw),
            4..=6 => Edge::raises(draw),
            7..=8 => Edge::all_in(draw),
            _ => Edge::below_nothing(draw),
        }
    }

    /// 15 below the line; the bet may be under the seat's own.
    fn calls_self(draw: &mut Draw) -> Self {
        let own = size(draw);
        let bet = draw.pick(&[own, 0.0]);
        let line = own - tolerance(own);
        Edge { own, stack: 4.0 * own, bet, min_raise: 1.0, line }
    }

    /// 16 below the line.
    fn calls(draw: &mut Draw) -> Self {
        let bet = size(draw);
        let own = draw.pick(&[0.0, 0.5]) * bet;
        let line = bet - tolerance(bet);
        Edge { own, stack: 4.0 * bet, bet, min_raise: 1.0, line }
    }

    /// 17 below the line.
    fn raises(draw: &mut Draw) -> Self {
        let min_raise = size(draw);
        let bet = draw.pick(&[0.0, 1.0, 1.0]) * size(draw);
        let own = draw.pick(&[0.0, 1.0]) * bet;
        let line = bet + min_raise - tolerance(bet + min_raise);
        Edge { own, stack: 4.0 * (bet + min_raise), bet, min_raise, line }
    }

    /// 16 below the line: the whole stack does not call, but all in is allowed.
    fn all_in(draw: &mut Draw) -> Self {
        let stack = size(draw);
        let own = draw.pick(&[0.0, 1.0]) * size(draw);
        let line = own + stack - tolerance(stack);
        Edge { own, stack, bet: 2.0 * (own + stack), min_raise: 1.0, line }
    }

    /// All in with a stack below 0. The large bet makes 15's tolerance wide.
    fn below_nothing(draw: &mut Draw) -> Self {
        let stack = -1.0 - amounts::whole(draw, 99);
        let own = 150.0 + amounts::whole(draw, 100);
        let line = own + stack - tolerance(stack);
        Edge { own, stack, bet: 1_048_576.0, min_raise: 1.0, line }
    }

    /// A half-played table around it.
    fn table(&self, draw: &mut Draw) -> Table {
        let mut table = tables::half_played(draw);
        let seat = table.get(place::TO_ACT_IDX);
        table.set_float(place::ROUND_BETS + seat, self.own);
        table.set_float(place::STACKS + seat, self.stack);
        table.set_float(place::ROUND_BET, self.bet);
        table.set_float(place::MIN_RAISE, self.min_raise);
        table
    }
}

fn tolerance(x: f32) -> f32 {
    x.abs().max(1.0) * f32::EPSILON * 1000.0
}

/// Whole, or just above a power of two: from there a tolerance reaches down to
/// where floats lie closer, and what is added or taken away rounds differently.
fn size(draw: &mut Draw) -> f32 {
    if draw.once_in(3) {
        return 1.0 + amounts::whole(draw, 20_000);
    }
    let power = 127 + draw.below(17) as u32;
    f32::from_bits(power << 23 | draw.below(1500) as u32)
}
