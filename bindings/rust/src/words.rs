//! The two arrays in which a table crosses the boundary.

use crate::places::{FLOATS, NUMBERS, float, number};

/// A table has at most so many seats.
pub const MAX_PLAYERS: usize = 16;

/// What a step gives beside the table is not a part of it, nor are the numbers from FREE on: two tables are equal without
/// them.
#[derive(Clone, Debug)]
pub struct Words {
    pub floats: [f32; FLOATS],
    pub numbers: [u32; NUMBERS],
}

impl Words {
    pub const ZEROS: Words = Words { floats: [0.0; FLOATS], numbers: [0; NUMBERS] };

    pub fn number(&self, place: usize) -> usize {
        self.numbers[place] as usize
    }

    pub fn seats(&self, place: usize) -> u16 {
        self.numbers[place] as u16
    }

    /// The first so many of the list at a place; a list has at most 16.
    pub fn list(&self, place: usize, count: usize) -> &[f32] {
        &self.floats[place..place + count.min(MAX_PLAYERS)]
    }
}

impl PartialEq for Words {
    fn eq(&self, other: &Self) -> bool {
        let own = |words: &Words| {
            let mut words = words.clone();
            words.floats[float::PAID] = 0.0;
            words.numbers[number::PASSED] = 0;
            words.numbers[number::FREE..].fill(0);
            (words.floats, words.numbers)
        };
        own(self) == own(other)
    }
}

/// A seat as the boundary takes it; what does not fit is no seat there either.
pub fn seat(idx: usize) -> u32 {
    u32::try_from(idx).unwrap_or(u32::MAX)
}
