//! A record or round data as words: what lists show and what is compared.

use crate::bits;
use crate::places::{FLOATS, NUMBERS};

pub use crate::places::place;

pub const WORDS: usize = NUMBERS + FLOATS;
pub const MAX_SEATS: usize = 16;
pub const MAX_BOARD: usize = 5;

/// The four sets of a record.
pub const SETS: [usize; 4] = [
    place::PLAYER_ACTIVE,
    place::PLAYER_ALL_IN,
    place::STARTING_PLAYER_ACTIVE,
    place::NEEDS_ACTION,
];

/// The record's lists that have one amount for each seat.
pub const SEAT_LISTS: [usize; 4] =
    [place::STACKS, place::STARTING_STACKS, place::HAND_BETS, place::WINNINGS];

/// The bits of the seats below n, for any n.
pub fn first_seats(n: usize) -> u16 {
    if n >= MAX_SEATS { u16::MAX } else { (1 << n) - 1 }
}

#[derive(Clone)]
pub struct Table {
    pub words: [u32; WORDS],
}

impl Table {
    pub const ZEROS: Table = Table { words: [0; WORDS] };

    pub fn get(&self, place: usize) -> usize {
        self.words[place] as usize
    }

    pub fn set(&mut self, place: usize, value: usize) {
        self.words[place] = value as u32;
    }

    pub fn seats(&self, place: usize) -> u16 {
        self.words[place] as u16
    }

    pub fn float(&self, place: usize) -> f32 {
        f32::from_bits(self.words[place])
    }

    pub fn set_float(&mut self, place: usize, value: f32) {
        self.words[place] = bits::of(value);
    }

    pub fn set_floats(&mut self, place: usize, values: &[f32]) {
        for (offset, &value) in values.iter().enumerate() {
            self.set_float(place + offset, value);
        }
    }

    /// Sets the places of each list at or above its length to 0, as they are in
    /// every table that comes from the Rust.
    pub fn clear_tails(&mut self) {
        let n = self.get(place::NUM_PLAYERS).min(MAX_SEATS);
        for list in SEAT_LISTS {
            self.words[list + n..list + MAX_SEATS].fill(0);
        }
        let bets = place::ROUND_BETS + self.get(place::ROUND_LENGTH).min(MAX_SEATS);
        self.words[bets..place::ROUND_BETS + MAX_SEATS].fill(0);
        let board = place::BOARD + self.get(place::BOARD_LENGTH).min(MAX_BOARD);
        self.words[board..place::BOARD + MAX_BOARD].fill(0);
    }

    /// The first `count` floats of the list at `place`.
    pub fn floats(&self, place: usize, count: usize) -> impl Iterator<Item = f32> + '_ {
        (place..place + count).map(|at| self.float(at))
    }
}
