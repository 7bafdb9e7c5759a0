//! Draws records that are not sound.

use crate::draw::Draw;
use crate::table::{MAX_BOARD, MAX_SEATS, SETS, Table, first_seats, place};
use crate::tables;

/// A record that is not sound, for one reason or for two.
pub fn table(draw: &mut Draw) -> Table {
    let mut table = if draw.once_in(2) { tables::half_played(draw) } else { tables::built(draw) };
    for _ in 0..draw.pick(&[1, 1, 1, 2]) {
        break_one(draw, &mut table);
    }
    table.clear_tails();
    table
}

/// One change, after which the record is not sound.
pub fn break_one(draw: &mut Draw, table: &mut Table) {
    let n = table.get(place::NUM_PLAYERS);
    match draw.below(8) {
        0 => only_the_count(draw, table),
        1 => table.set(place::ROUND_LENGTH, draw.pick(&[0, n.saturating_sub(1), n + 1, 17])),
        2 => table.set(place::DEALER_IDX, n + draw.below(4)),
        3 => table.set(place::TO_ACT_IDX, n + draw.below(4)),
        4 => table.set(place::BOARD_LENGTH, draw.pick(&[6, 7, 255])),
        5 => {
            let length = draw.within(1, MAX_BOARD);
            table.set(place::BOARD_LENGTH, length);
            table.set(place::BOARD + draw.below(length), draw.pick(&[52, 53, 255]));
        }
        _ if n >= MAX_SEATS => table.set(place::DEALER_IDX, n),
        _ => {
            let set = draw.pick(&SETS);
            let outside = 1 << draw.within(n, MAX_SEATS - 1);
            table.set(set, table.get(set) | outside);
        }
    }
}

/// 0, 1 or 17 seats, the rest of the record fitting as well as it can.
fn only_the_count(draw: &mut Draw, table: &mut Table) {
    let n = draw.pick(&[0, 1, 17]);
    table.set(place::NUM_PLAYERS, n);
    table.set(place::ROUND_LENGTH, n);
    table.set(place::DEALER_IDX, 0);
    table.set(place::TO_ACT_IDX, 0);
    for set in SETS {
        table.set(set, table.get(set) & first_seats(n) as usize);
    }
}
