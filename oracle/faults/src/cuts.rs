//! A card of 200 hands, cut at every byte.

use peatcloak::journal::{JournalError, Title, first_hand};

use crate::{Tried, hands, progress};

pub const HANDS: u32 = 200;

/// The card, and where each hand ends.
pub fn card() -> Result<(Vec<u8>, Vec<usize>), String> {
    let (mut bytes, mut ends) = (Vec::new(), Vec::new());
    for number in 1..=HANDS {
        let lines = hands::lines(hands::SMALLEST + (number as usize * 53) % 300);
        let hand = hands::ours(number, &lines).map_err(|e| format!("hand {number}: {e}"))?;
        if hands::theirs(number, &lines) != Ok(hand.clone()) {
            return Err(format!("the second writer writes hand {number} otherwise"));
        }
        bytes.extend(hand);
        ends.push(bytes.len());
    }
    Ok((bytes, ends))
}

/// How many hands read from the front on, in order, and whether nothing is left behind them. What is left must be 27.
fn read(card: &[u8]) -> Result<(usize, bool), String> {
    let (mut rest, mut hands) = (card, 0);
    loop {
        match first_hand(rest) {
            Ok((hand, behind)) if hand.title() == Title::new(hands::key_of(hands as u32 + 1)) => {
                (rest, hands) = (behind, hands + 1);
            }
            Ok((hand, _)) => return Err(format!("behind hand {hands} reads {:?}", hand.title())),
            Err(JournalError::BadJournal) => return Ok((hands, rest.is_empty())),
            Err(other) => return Err(format!("behind hand {hands} it is {other}, not 27")),
        }
    }
}

fn try_one(bytes: &[u8], ends: &[usize]) -> Result<(), String> {
    let whole = ends.iter().filter(|&&end| end <= bytes.len()).count();
    let is_end = bytes.is_empty() || ends.contains(&bytes.len());
    let (hands, is_all) = read(bytes)?;
    if (hands, is_all) == (whole, is_end) {
        return Ok(());
    }
    Err(format!("{hands} hands read and not {whole}; all is read: {is_all} and not {is_end}"))
}

pub fn try_all() -> Tried {
    let (bytes, ends) = card()?;
    for length in 0..=bytes.len() {
        progress::tell("cuts", length, bytes.len() + 1);
        try_one(&bytes[..length], &ends).map_err(|why| format!("cut to {length} bytes: {why}"))?;
    }
    let (cuts, blocks) = (bytes.len() + 1, bytes.len() / 512);
    Ok(format!("{cuts} cuts of a card of {HANDS} hands, {blocks} blocks; each torn one 27"))
}
