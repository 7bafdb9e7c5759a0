//! Every damage of one bit in a hand of three blocks.

use lists::journal::hand;
use peatcloak::journal::{HandReader, JournalError};

use crate::{Tried, hands, progress};

/// Two filled blocks and a part of a third.
const ENTRIES: usize = 300;

pub fn try_all() -> Tried {
    let lines = hands::lines(ENTRIES);
    let mut bytes = hands::ours(1, &lines).map_err(|e| format!("not written: {e}"))?;
    if hands::theirs(1, &lines) != Ok(bytes.clone()) {
        return Err("the second writer writes other bytes".into());
    }
    for bit in 0..8 * bytes.len() {
        progress::tell("bits", bit, 8 * bytes.len());
        bytes[bit / 8] ^= 1 << (bit % 8);
        if HandReader::new(&bytes) != Err(JournalError::BadJournal) || hand::read(&bytes).is_ok() {
            return Err(format!("bit {} of byte {} is not found", bit % 8, bit / 8));
        }
        bytes[bit / 8] ^= 1 << (bit % 8);
    }
    Ok(format!("{} damages of one bit, each 27", 8 * bytes.len()))
}
