//! Steps on records: any step at any time, and whole hands.

use lists::draw::Draw;
use lists::step::Step;
use lists::table::{MAX_BOARD, MAX_SEATS, SEAT_LISTS, Table, place};
use lists::{amounts, broken, edges, play, tables};

use crate::difference::Difference;
use crate::keys;
use crate::pair::Pair;
use crate::settle;
use crate::tally::Tally;

/// A table as the list `steps` draws them, with more steps on it.
pub fn any(draw: &mut Draw, tally: &mut Tally) -> Result<(), Box<Difference>> {
    let table = match draw.below(120) {
        0..=4 => return around_a_line(draw, tally),
        5..=9 => broken::table(draw),
        10..=19 => tables::built(draw),
        20..=49 => tables::half_played(draw),
        _ => tables::strange(draw),
    };
    let table = if draw.once_in(8) { with_tails(draw, table) } else { table };
    let mut pair = Pair::load(&keys::any(draw, table));
    for _ in 0..draw.within(1, 60) {
        let step = play::at_random(draw, &pair.ours);
        pair.take(&step, tally)?;
    }
    Ok(())
}

/// Bets from just below a line upward until one is accepted, and some steps after it.
fn around_a_line(draw: &mut Draw, tally: &mut Tally) -> Result<(), Box<Difference>> {
    let (table, mut amount) = edges::drawn(draw);
    let mut pair = Pair::load(&keys::good(draw, table));
    for _ in 0..edges::TRIES {
        pair.take(&Step::Bet(amount), tally)?;
        amount = amount.next_up();
    }
    Ok(())
}

/// Anything at the places that no seat and no card has: no step may look at them or write them.
fn with_tails(draw: &mut Draw, mut table: Table) -> Table {
    let n = table.get(place::NUM_PLAYERS).min(MAX_SEATS);
    for list in SEAT_LISTS.into_iter().chain([place::ROUND_BETS]) {
        for seat in n..MAX_SEATS {
            table.set_float(list + seat, amounts::any(draw));
        }
    }
    for card in table.get(place::BOARD_LENGTH).min(MAX_BOARD)..MAX_BOARD {
        table.set(place::BOARD + card, draw.below(256));
    }
    table
}

/// A hand from its start to its end, and some steps after it; now and then it is settled at its end.
pub fn hand(draw: &mut Draw, tally: &mut Tally) -> Result<(), Box<Difference>> {
    let table = tables::new_game(draw);
    let mut pair = Pair::load(&keys::good(draw, table));
    let mut is_over = false;
    for _ in 0..draw.within(40, 250) {
        let step = play::in_turn(draw, &pair.ours);
        pair.take(&step, tally)?;
        if !is_over && play::is_over(&pair.ours) {
            is_over = true;
            if draw.once_in(16) {
                settle::once(draw, &pair.ours, tally)?;
            }
        }
        if is_over && draw.once_in(4) {
            break;
        }
    }
    Ok(())
}
