//! A hand played again.

use std::error::Error;
use std::fmt;

use super::JournalError;
use crate::arena::GameState;
use crate::library;
use crate::sys;
use crate::words::Words;

/// Why a hand leads to no table.
#[derive(Debug, Clone, Copy, PartialEq, Eq, Hash)]
pub enum ReplayError {
    /// The bytes are no hand.
    BadJournal,
    /// A line is refused.
    Refused {
        /// Which line of the hand, counted from 0.
        line: usize,
        /// The refusal's number.
        number: u32,
    },
}

impl ReplayError {
    /// The number of the refusal.
    pub fn number(self) -> u32 {
        match self {
            ReplayError::BadJournal => JournalError::BadJournal.number(),
            ReplayError::Refused { number, .. } => number,
        }
    }
}

impl fmt::Display for ReplayError {
    fn fmt(&self, f: &mut fmt::Formatter<'_>) -> fmt::Result {
        match self {
            ReplayError::BadJournal => JournalError::BadJournal.fmt(f),
            ReplayError::Refused { line, number } => {
                write!(f, "line {line} is refused with {number}")
            }
        }
    }
}

impl Error for ReplayError {}

/// The table that a hand leads to when its lines are played again, with the hand's key: exactly the bytes of one hand.
pub fn replay(bytes: &[u8]) -> Result<GameState, ReplayError> {
    library::check();
    let (mut words, mut out) = (Words::ZEROS, [0]);
    let (floats, numbers) = (&mut words.floats, &mut words.numbers);
    // SAFETY: all are there, are this long and do not overlap.
    let refused = unsafe {
        sys::peatcloak_replay_hand(
            floats.as_mut_ptr(),
            floats.len(),
            numbers.as_mut_ptr(),
            numbers.len(),
            bytes.as_ptr(),
            bytes.len(),
            out.as_mut_ptr(),
            out.len(),
        )
    };
    match refused {
        0 => Ok(GameState { words }),
        number if number == JournalError::BadJournal.number() => Err(ReplayError::BadJournal),
        number => Err(ReplayError::Refused { line: out[0] as usize, number }),
    }
}
