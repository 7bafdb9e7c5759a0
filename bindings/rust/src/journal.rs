//! The hand journal (added): a hand as blocks of 512 bytes, for a card.
//!
//! [`Hand`] collects a hand's lines and writes its blocks. [`HandReader`] reads the bytes of one hand: its title and its
//! lines, as they were pushed, each with its count and its first [`LINE_NUMBERS`] numbers. [`first_hand`] finds a hand among the bytes of a card, and [`replay`] plays one again.

mod reading;
mod replaying;
mod writing;

pub use crate::arena::errors::JournalError;
pub use reading::{BlockHead, HandReader, Line, Lines, first_hand, read_block};
pub use replaying::{ReplayError, replay};
pub use writing::Hand;

use crate::arena::HandKey;

/// The bytes of a block.
pub const BLOCK: usize = 512;
/// The entries that fit into a block: a letter is one, and each number.
pub const BLOCK_ENTRIES: usize = 120;
/// The most blocks of a hand.
pub const HAND_BLOCKS: usize = 255;
/// The most entries of a hand.
pub const HAND_ENTRIES: usize = 30_600;
/// The numbers of a line that are read, as many as a `t` with 16 stacks has.
pub const LINE_NUMBERS: usize = 20;
/// The one edition that is known.
pub const EDITION: u8 = 1;

/// What all blocks of a hand say alike.
#[derive(Clone, Copy, Debug, PartialEq, Eq, Hash)]
pub struct Title {
    /// The key of the hand.
    pub key: HandKey,
    /// The edition of the rules that it was played by.
    pub edition: u8,
}

impl Title {
    /// Of a hand that is played by the one edition there is.
    pub fn new(key: HandKey) -> Self {
        Title { key, edition: EDITION }
    }

    /// As the boundary takes it.
    fn words(self) -> [u32; 4] {
        let HandKey { code, year, hand } = self.key;
        [code.into(), year.into(), hand, self.edition.into()]
    }

    /// As the boundary tells it: code and year have 16 bits there, an edition 8.
    fn of(words: [u32; 4]) -> Self {
        let [code, year, hand, edition] = words;
        Title {
            key: HandKey { code: code as u16, year: year as u16, hand },
            edition: edition as u8,
        }
    }
}

fn accepted(refused: u32) -> Result<(), JournalError> {
    if refused == 0 { Ok(()) } else { Err(JournalError::of(refused)) }
}
