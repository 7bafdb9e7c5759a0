//! Draws tables for the kind `settlements`: pots of several levels, and tables
//! that a settlement refuses or nearly refuses.

use crate::amounts;
use crate::draw::Draw;
use crate::settlement::MOST_CHIPS;
use crate::table::{Table, first_seats, place};
use crate::tables;

/// A table in whole chips that is settled, unless every seat has folded.
pub fn fair(draw: &mut Draw) -> Table {
    let n = draw.players();
    let mut table = Table::ZEROS;
    table.set(place::NUM_PLAYERS, n);
    table.set(place::ROUND_LENGTH, n);
    table.set(place::DEALER_IDX, draw.below(n));
    table.set(place::TO_ACT_IDX, draw.below(n));
    tables::put_round(draw, &mut table);
    put_seats(draw, &mut table, n);
    put_idle(draw, &mut table, n);
    put_chips(draw, &mut table, n);
    table
}

/// Active, all in, both (as a builder may make a seat) or folded.
fn put_seats(draw: &mut Draw, table: &mut Table, n: usize) {
    for seat in 0..n {
        let (active, all_in) = match draw.below(10) {
            0..=3 => (1, 0),
            4..=5 => (0, 1),
            6 => (1, 1),
            _ => (0, 0),
        };
        table.set(place::PLAYER_ACTIVE, table.get(place::PLAYER_ACTIVE) | active << seat);
        table.set(place::PLAYER_ALL_IN, table.get(place::PLAYER_ALL_IN) | all_in << seat);
    }
    table.set(place::STARTING_PLAYER_ACTIVE, first_seats(n) as usize);
    table.set(place::NEEDS_ACTION, draw.seats(n) as usize);
}

/// Amounts that a settlement does not look at may be anything.
fn put_idle(draw: &mut Draw, table: &mut Table, n: usize) {
    let singles = place::BIG_BLIND..=place::MIN_RAISE;
    let of_any_kind = draw.once_in(4);
    for at in singles.chain(place::ROUND_BETS..place::ROUND_BETS + n) {
        let amount = if of_any_kind { amounts::any(draw) } else { amounts::whole(draw, 20) };
        table.set_float(at, amount);
    }
}

/// Bets mostly on a few levels, and no more chips than a table may have.
fn put_chips(draw: &mut Draw, table: &mut Table, n: usize) {
    let share = MOST_CHIPS as usize / n;
    let most = draw.pick(&[3, 10, 40, 200, share]).min(share);
    let levels: [usize; 4] = std::array::from_fn(|_| draw.within(0, most));
    let level_count = draw.within(1, levels.len());
    let mut left = MOST_CHIPS as usize;
    for seat in 0..n {
        let on_level = !draw.once_in(4);
        let bet = if on_level { draw.pick(&levels[..level_count]) } else { draw.within(0, most) };
        let stack = stack(draw, table, seat, share - bet);
        put_seat(draw, table, seat, stack, bet);
        left -= stack + bet;
    }
    if draw.once_in(6) {
        give_the_rest(draw, table, n, left);
    }
    let pot = table.floats(place::HAND_BETS, n).sum();
    table.set_float(place::TOTAL_POT, pot);
}

/// Who is all in has mostly nothing left, though nothing asks for it.
fn stack(draw: &mut Draw, table: &Table, seat: usize, most: usize) -> usize {
    let is_all_in = table.get(place::PLAYER_ALL_IN) >> seat & 1 == 1;
    let is_empty = if is_all_in { !draw.once_in(8) } else { draw.once_in(8) };
    if is_empty { 0 } else { draw.within(0, most) }
}

fn put_seat(draw: &mut Draw, table: &mut Table, seat: usize, stack: usize, bet: usize) {
    // What the seat began with, or a stack from which it has won or lost.
    let starting = match draw.below(4) {
        0 => draw.within(0, MOST_CHIPS as usize),
        1 => draw.within(0, stack + bet),
        _ => stack + bet,
    };
    for (list, chips) in
        [(place::STACKS, stack), (place::STARTING_STACKS, starting), (place::HAND_BETS, bet)]
    {
        let zero = draw.pick(&[0.0, 0.0, -0.0]);
        table.set_float(list + seat, if chips == 0 { zero } else { chips as f32 });
    }
    table.set_float(place::WINNINGS + seat, draw.pick(&[0.0, 0.0, 0.0, -0.0]));
}

/// One seat's stack or bet fills the table up to the most chips.
fn give_the_rest(draw: &mut Draw, table: &mut Table, n: usize, left: usize) {
    let at = draw.pick(&[place::STACKS, place::HAND_BETS]) + draw.below(n);
    table.set_float(at, table.float(at) + left as f32);
}

/// Changes one thing, so that a settlement mostly refuses the table.
pub fn spoil(draw: &mut Draw, table: &mut Table) {
    let n = table.get(place::NUM_PLAYERS);
    let seat = draw.below(n);
    let pot = table.float(place::TOTAL_POT);
    match draw.below(8) {
        0..=1 => {
            let won = draw.pick(&[1.0, 0.5, -1.0, -0.0, f32::NAN, f32::from_bits(1)]);
            table.set_float(place::WINNINGS + seat, won);
        }
        2..=3 => {
            for set in [place::PLAYER_ACTIVE, place::PLAYER_ALL_IN] {
                table.set(set, 0);
            }
        }
        4 => table.set_float(place::TOTAL_POT, pot + draw.pick(&[1.0, -1.0, 0.5])),
        // One chip too many, if the table was full.
        5 => {
            let stack = table.float(place::STACKS + seat);
            table.set_float(place::STACKS + seat, stack + 1.0);
        }
        6 => {
            let list = draw.pick(&[place::STACKS, place::STARTING_STACKS, place::HAND_BETS]);
            table.set_float(list + seat, amounts::any(draw));
        }
        _ => {
            let at = place::STARTING_STACKS + seat;
            table.set_float(at, draw.pick(&[8000.0, 8001.0, -1.0, 0.5, f32::NAN]));
        }
    }
}
