//! Hands of every length, from the smallest to the longest that fits, and one entry more.

use peatcloak::journal::{HAND_ENTRIES, HandReader, JournalError};

use crate::{Tried, hands, progress};

/// The second writer is slow: it is asked of the short ones, of those about a block's end, and of some others.
fn is_compared(entries: usize) -> bool {
    entries <= 1_000 || entries % 1_200 <= 1 || entries % 997 == 0 || entries + 2 > HAND_ENTRIES
}

fn try_one(entries: usize) -> Result<(), String> {
    let lines = hands::lines(entries);
    let bytes = hands::ours(1, &lines).map_err(|e| format!("{entries} entries: {e}"))?;
    let hand = HandReader::new(&bytes).map_err(|e| format!("{entries} entries, read: {e}"))?;
    let mut read = hand.lines();
    let same = lines.iter().all(|line| {
        read.next().is_some_and(|r| r.letter == line.letter && r.numbers() == line.numbers)
    });
    if !same
        || read.next().is_some()
        || hand.entries() != entries
        || bytes.len() != 512 * entries.div_ceil(120)
    {
        return Err(format!("{entries} entries come back as others"));
    }
    if is_compared(entries) && hands::theirs(1, &lines) != Ok(bytes) {
        return Err(format!("{entries} entries: the second writer writes other bytes"));
    }
    Ok(())
}

pub fn try_all() -> Tried {
    let lengths = hands::SMALLEST..=HAND_ENTRIES;
    let compared = lengths.clone().filter(|&entries| is_compared(entries)).count();
    for entries in lengths.clone() {
        progress::tell("lengths", entries, HAND_ENTRIES);
        try_one(entries)?;
    }
    let above = hands::lines(HAND_ENTRIES + 1);
    if hands::ours(1, &above) != Err(JournalError::NotKept) || hands::theirs(1, &above) != Err(28) {
        return Err(format!("{} entries are not 28", HAND_ENTRIES + 1));
    }
    Ok(format!(
        "{} lengths, {compared} of them beside the second writer, and one more, 28",
        lengths.count()
    ))
}
