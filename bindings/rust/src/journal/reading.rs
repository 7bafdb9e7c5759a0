//! A block, a hand and its lines, read from bytes.

use std::iter::FusedIterator;

use super::{BLOCK, JournalError, LINE_NUMBERS, ReplayError, Title, accepted, replay};
use crate::arena::GameState;
use crate::library;
use crate::sys;

/// What one block says of itself.
#[derive(Clone, Copy, Debug, PartialEq, Eq)]
pub struct BlockHead {
    /// The title of its hand.
    pub title: Title,
    /// Which block of the hand it is, counted from 0.
    pub index: u8,
    /// Whether it is the hand's last.
    pub is_last: bool,
    /// How many of its entries are used.
    pub entries: u8,
}

/// What one block says of itself: exactly 512 bytes, or `BadJournal`.
pub fn read_block(bytes: &[u8]) -> Result<BlockHead, JournalError> {
    library::check();
    let mut head = [0; 7];
    // SAFETY: both are there, are this long and do not overlap.
    let refused = unsafe {
        sys::peatcloak_read_block(bytes.as_ptr(), bytes.len(), head.as_mut_ptr(), head.len())
    };
    accepted(refused)?;
    let [code, year, hand, edition, index, is_last, entries] = head;
    Ok(BlockHead {
        title: Title::of([code, year, hand, edition]),
        index: index as u8,
        is_last: is_last == 1,
        entries: entries as u8,
    })
}

/// The bytes of one hand.
#[derive(Clone, Copy, Debug, PartialEq, Eq)]
pub struct HandReader<'a> {
    bytes: &'a [u8],
    title: Title,
    blocks: usize,
    entries: usize,
}

impl<'a> HandReader<'a> {
    /// Exactly the bytes of one hand, or `BadJournal`.
    pub fn new(bytes: &'a [u8]) -> Result<Self, JournalError> {
        library::check();
        let mut head = [0; 6];
        // SAFETY: both are there, are this long and do not overlap.
        let refused = unsafe {
            sys::peatcloak_read_hand(bytes.as_ptr(), bytes.len(), head.as_mut_ptr(), head.len())
        };
        accepted(refused)?;
        let [code, year, hand, edition, blocks, entries] = head;
        let title = Title::of([code, year, hand, edition]);
        Ok(HandReader { bytes, title, blocks: blocks as usize, entries: entries as usize })
    }

    /// Its title.
    pub fn title(&self) -> Title {
        self.title
    }

    /// How many blocks it has.
    pub fn blocks(&self) -> usize {
        self.blocks
    }

    /// How many entries they hold.
    pub fn entries(&self) -> usize {
        self.entries
    }

    /// Its lines, from the first on.
    pub fn lines(&self) -> Lines<'a> {
        Lines { bytes: self.bytes, at: 0 }
    }

    /// The table that it leads to.
    pub fn replay(&self) -> Result<GameState, ReplayError> {
        replay(self.bytes)
    }
}

impl<'a> IntoIterator for HandReader<'a> {
    type Item = Line;
    type IntoIter = Lines<'a>;

    fn into_iter(self) -> Lines<'a> {
        self.lines()
    }
}

/// A line of a hand.
#[derive(Clone, Copy, Debug, PartialEq, Eq)]
pub struct Line {
    /// Its letter.
    pub letter: u8,
    /// How many numbers it has.
    pub count: usize,
    numbers: [u16; LINE_NUMBERS],
}

impl Line {
    /// Its numbers: the first twenty, where it has more. No line with more is ever accepted at a table.
    pub fn numbers(&self) -> &[u16] {
        &self.numbers[..self.count.min(LINE_NUMBERS)]
    }
}

/// The lines of a hand, one by one.
#[derive(Clone, Debug)]
pub struct Lines<'a> {
    bytes: &'a [u8],
    at: usize,
}

impl Iterator for Lines<'_> {
    type Item = Line;

    fn next(&mut self) -> Option<Line> {
        let (mut line, mut numbers) = ([0; 3], [0; LINE_NUMBERS]);
        // SAFETY: all are there, are this long and do not overlap.
        let refused = unsafe {
            sys::peatcloak_line_at(
                self.bytes.as_ptr(),
                self.bytes.len(),
                self.at,
                line.as_mut_ptr(),
                line.len(),
                numbers.as_mut_ptr(),
                numbers.len(),
            )
        };
        debug_assert_eq!(refused, 0, "both lists are long enough");
        let [letter, count, next] = line;
        self.at = next as usize;
        (letter != 0).then_some(Line { letter: letter as u8, count: count as usize, numbers })
    }
}

impl FusedIterator for Lines<'_> {}

/// The first hand of a card's bytes, and the bytes behind it. `BadJournal` where its blocks are no hand, or none of
/// them is the last.
pub fn first_hand(card: &[u8]) -> Result<(HandReader<'_>, &[u8]), JournalError> {
    let mut end = 0;
    for block in card.chunks(BLOCK) {
        end += block.len();
        if read_block(block)?.is_last {
            let (hand, rest) = card.split_at(end);
            return Ok((HandReader::new(hand)?, rest));
        }
    }
    Err(JournalError::BadJournal)
}
