//! A hand collected line by line, and its blocks.

use super::{BLOCK, BLOCK_ENTRIES, HAND_BLOCKS, JournalError, Title, accepted};
use crate::library;
use crate::sys;

/// A hand as it is collected: its title, and its lines as entries.
#[derive(Clone, Debug, PartialEq, Eq)]
pub struct Hand {
    title: Title,
    tape: Vec<u32>,
}

impl Hand {
    /// A hand with no line yet.
    pub fn new(title: Title) -> Self {
        library::check();
        Hand { title, tape: Vec::new() }
    }

    /// Its title.
    pub fn title(&self) -> Title {
        self.title
    }

    /// How many entries its lines have: one for each letter and each number.
    pub fn entries(&self) -> usize {
        self.tape.len()
    }

    /// One line more: its letter and its numbers. `BadJournal`, and nothing more, for a letter that no hand has, or a
    /// count of numbers that its letter never has. Whether all lines are a hand is asked when it is written.
    pub fn push(&mut self, letter: u8, numbers: &[u16]) -> Result<(), JournalError> {
        let used = self.tape.len();
        self.tape.resize(used + 1 + numbers.len(), 0);
        let mut out = [0];
        // SAFETY: all are there, are this long and do not overlap.
        let refused = unsafe {
            sys::peatcloak_put_line(
                self.tape.as_mut_ptr(),
                self.tape.len(),
                used,
                letter.into(),
                numbers.as_ptr(),
                numbers.len(),
                out.as_mut_ptr(),
                out.len(),
            )
        };
        accepted(refused).inspect_err(|_| self.tape.truncate(used))
    }

    /// All its blocks, one behind the other. `BadJournal` for lines that are no hand, or an edition that is not known;
    /// then `NotKept` for no key, or more entries than fit.
    pub fn write(&self) -> Result<Vec<u8>, JournalError> {
        let blocks = self.tape.len().div_ceil(BLOCK_ENTRIES).min(HAND_BLOCKS);
        let (title, mut bytes, mut out) = (self.title.words(), vec![0; BLOCK * blocks], [0]);
        // SAFETY: all are there, are this long and do not overlap.
        let refused = unsafe {
            sys::peatcloak_write_hand(
                title.as_ptr(),
                title.len(),
                self.tape.as_ptr(),
                self.tape.len(),
                bytes.as_mut_ptr(),
                bytes.len(),
                out.as_mut_ptr(),
                out.len(),
            )
        };
        accepted(refused).map(|()| bytes)
    }

    /// One of its blocks alone, and whether another must follow. Refused as `write` is, but that lines are not looked
    /// at: `BadJournal` where no entry is left for it.
    pub fn block(&self, index: u8) -> Result<([u8; BLOCK], bool), JournalError> {
        let rest = self.tape.get(BLOCK_ENTRIES * usize::from(index)..).unwrap_or_default();
        let (title, mut bytes, mut out) = (self.title.words(), [0; BLOCK], [0]);
        // SAFETY: all are there, are this long and do not overlap.
        let refused = unsafe {
            sys::peatcloak_write_block(
                title.as_ptr(),
                title.len(),
                index.into(),
                rest.as_ptr(),
                rest.len(),
                bytes.as_mut_ptr(),
                bytes.len(),
                out.as_mut_ptr(),
                out.len(),
            )
        };
        accepted(refused).map(|()| (bytes, out[0] == 1))
    }
}
