//! A settlement of six seats in three layers, one seat folded. The Rust has none.

use std::hint::black_box;

use lists::places::{FLOATS, NUMBERS};
use lists::table::{MAX_SEATS, Table, first_seats, place};
use peatcloak::sys;

const SETTLEMENTS: u64 = 1000;
const BETS: [f32; 6] = [100.0, 40.0, 70.0, 100.0, 33.0, 100.0];
const RANKS: [u16; MAX_SEATS] = [5, 9, 7, 5, 1, 3, 0, 0, 0, 0, 0, 0, 0, 0, 0, 0];

fn table() -> Table {
    let mut table = Table::ZEROS;
    table.set(place::NUM_PLAYERS, 6);
    table.set(place::ROUND_LENGTH, 6);
    table.set(place::ROUND, 10);
    // Seat 4 has folded; seats 1 and 2 are all in.
    table.set(place::PLAYER_ACTIVE, 0b101001);
    table.set(place::PLAYER_ALL_IN, 0b000110);
    table.set(place::STARTING_PLAYER_ACTIVE, first_seats(6).into());
    table.set_floats(place::HAND_BETS, &BETS);
    table.set_float(place::TOTAL_POT, BETS.iter().sum());
    for (seat, bet) in BETS.iter().enumerate() {
        table.set_float(place::STARTING_STACKS + seat, *bet);
    }
    table
}

pub fn ours() -> u64 {
    let start = table();
    for _ in 0..SETTLEMENTS {
        let mut table = start.clone();
        let mut rewards = [0; MAX_SEATS];
        let words = black_box(&mut table).words.as_mut_ptr();
        // SAFETY: all parts are there, are this long and do not overlap.
        let refused = unsafe {
            sys::peatcloak_settle(
                words.add(NUMBERS).cast(),
                FLOATS,
                words,
                NUMBERS,
                RANKS.as_ptr(),
                MAX_SEATS,
                rewards.as_mut_ptr(),
                MAX_SEATS,
            )
        };
        assert_eq!((refused, rewards.iter().sum::<i32>()), (0, 0));
        black_box((&table, &rewards));
    }
    SETTLEMENTS
}
