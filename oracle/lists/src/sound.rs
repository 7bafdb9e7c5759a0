//! The conditions of documents 01 and 02 for what the Rust must not be asked: there it
//! panics, loops, or answers on a record that they do not accept.

use rs_poker::arena::RoundData;

use crate::key::Key;
use crate::table::{MAX_BOARD, MAX_SEATS, SETS, Table, first_seats, place};

/// Whether all seats of a set are below n.
pub fn within(seats: u16, n: usize) -> bool {
    seats & !first_seats(n) == 0
}

/// Round data alone: 1 to 16 bets, the seat to act and the owing seats below.
pub fn round_data(table: &Table) -> bool {
    let n = table.get(place::ROUND_LENGTH);
    (1..=MAX_SEATS).contains(&n)
        && table.get(place::TO_ACT_IDX) < n
        && within(table.seats(place::NEEDS_ACTION), n)
}

/// A sound record.
pub fn record(table: &Table) -> bool {
    let n = table.get(place::NUM_PLAYERS);
    let board = table.get(place::BOARD_LENGTH);
    (2..=MAX_SEATS).contains(&n)
        && table.get(place::ROUND_LENGTH) == n
        && table.get(place::DEALER_IDX) < n
        && table.get(place::TO_ACT_IDX) < n
        && board <= MAX_BOARD
        && (place::BOARD..place::BOARD + board).all(|at| table.get(at) < 52)
        && SETS.iter().all(|&set| within(table.seats(set), n))
        && Key::of(table).is_good()
}

fn counters(data: &mut RoundData) -> [&mut u8; 3] {
    [&mut data.total_bet_count, &mut data.total_raise_count, &mut data.forced_bet_count]
}

/// Sets the counters to 0, on a copy that rehearses a bet: the Rust panics where
/// a counter is full, and no counter has a part in anything else of a bet.
pub fn clear_counters(data: &mut RoundData) {
    for counter in counters(data) {
        *counter = 0;
    }
}

/// Whether a counter that the rehearsed bet raised is full in `data`.
pub fn counter_full(mut data: RoundData, mut rehearsed: RoundData) -> bool {
    let raised = counters(&mut rehearsed);
    counters(&mut data)
        .iter()
        .zip(raised)
        .any(|(counter, raised)| **counter == u8::MAX && *raised > 0)
}
