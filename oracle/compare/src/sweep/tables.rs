//! The tables of a sweep: each on or beside a line that a bet is weighed by.

use lists::table::{Table, place};

/// What the seat to act, seat 0, meets.
pub struct Telling {
    pub name: &'static str,
    n: usize,
    own: f32,
    stack: f32,
    bet: f32,
    min_raise: f32,
    /// Seats that are all in; they owe nothing.
    all_in: usize,
}

const fn two(name: &'static str, own: f32, stack: f32, bet: f32, min_raise: f32) -> Telling {
    Telling { name, n: 2, own, stack, bet, min_raise, all_in: 0 }
}

/// EPSILON is the line at which a stack is spent.
const TWICE_EPSILON: f32 = 2.0 * f32::EPSILON;

pub const TABLES: [Telling; 14] = [
    two(
        "two seats after the blinds: 5 in, 95 left, bet 10, smallest raise 10",
        5.0,
        95.0,
        10.0,
        10.0,
    ),
    two("a short stack: 12 left, bet 10, smallest raise 10", 0.0, 12.0, 10.0, 10.0),
    two("a stack that does not call: 3 in, 4 left, bet 10", 3.0, 4.0, 10.0, 10.0),
    two("8,385 in and to call, where the tolerance passes a chip", 8385.0, 4000.0, 8385.0, 10.0),
    two("10,000 in and to call, 5,000 left", 10_000.0, 5000.0, 10_000.0, 10.0),
    two("a stack that is a NaN, bet 10", 5.0, f32::NAN, 10.0, 10.0),
    two("an infinite stack, bet 10", 5.0, f32::INFINITY, 10.0, 10.0),
    Telling {
        name: "six seats after a raise: 10 in, 940 left, bet 60, smallest raise 40",
        n: 6,
        own: 10.0,
        stack: 940.0,
        bet: 60.0,
        min_raise: 40.0,
        all_in: 0,
    },
    Telling {
        name: "three seats, one of them all in: 200 left, bet 37, smallest raise 27",
        n: 3,
        own: 10.0,
        stack: 200.0,
        bet: 37.0,
        min_raise: 27.0,
        all_in: 0b010,
    },
    two("a stack of 2^-22, and nothing to call", 0.0, TWICE_EPSILON, 0.0, f32::EPSILON),
    two("bet and smallest raise are NaNs: 5 in, 95 left", 5.0, 95.0, f32::NAN, f32::NAN),
    two("parts of a chip: 0.1 in, 0.7 left, bet 0.3, smallest raise 0.2", 0.1, 0.7, 0.3, 0.2),
    two("a stack below nothing: 200 in, -50 left, bet 1,048,576", 200.0, -50.0, 1_048_576.0, 1.0),
    Telling {
        name: "sixteen seats, 2^24 chips left, bet 2^23 less half a chip, smallest raise 1",
        n: 16,
        own: 0.0,
        stack: 16_777_216.0,
        bet: 8_388_607.5,
        min_raise: 1.0,
        all_in: 0b1000_0000_0000_0010,
    },
];

impl Telling {
    /// At Preflop. The other seats have called the bet and owe, but those all in.
    pub fn table(&self) -> Table {
        let n = self.n;
        let everyone = (1 << n) - 1;
        let mut table = Table::ZEROS;
        table.set(place::NUM_PLAYERS, n);
        table.set(place::ROUND_LENGTH, n);
        table.set(place::DEALER_IDX, n - 1);
        table.set(place::ROUND, 3);
        table.set(place::ROUND_BEFORE, 2);
        table.set(place::STARTING_PLAYER_ACTIVE, everyone);
        table.set(place::PLAYER_ALL_IN, self.all_in);
        table.set(place::PLAYER_ACTIVE, everyone & !self.all_in);
        table.set(place::NEEDS_ACTION, everyone & !self.all_in);
        table.set(place::TOTAL_BET_COUNT, n);
        table.set(place::TOTAL_RAISE_COUNT, 1);
        table.set(place::FORCED_BET_COUNT, 2);
        table.set_float(place::BIG_BLIND, 10.0);
        table.set_float(place::SMALL_BLIND, 5.0);
        table.set_float(place::ROUND_BET, self.bet);
        table.set_float(place::MIN_RAISE, self.min_raise);
        let mut pot = 0.0;
        for seat in 0..n {
            let bet = if seat == 0 { self.own } else { self.bet };
            let is_all_in = self.all_in >> seat & 1 == 1;
            let stack = if is_all_in { 0.0 } else { [self.stack, 1000.0][usize::from(seat > 0)] };
            table.set_float(place::STACKS + seat, stack);
            table.set_float(place::STARTING_STACKS + seat, stack + bet);
            table.set_float(place::HAND_BETS + seat, bet);
            table.set_float(place::ROUND_BETS + seat, bet);
            pot += bet;
        }
        table.set_float(place::TOTAL_POT, pot);
        table
    }
}
