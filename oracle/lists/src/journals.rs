//! The kind `journals`: hands as a card has them, written and read by the second writer and reader. Those made by hand
//! come first, then those drawn.

pub mod card;
mod checks;
mod damages;
mod drawn;
mod good;
mod joined;
mod layout;
mod limits;
mod refused;
pub mod tokens;

use std::io;

use crate::draw::Draw;
use crate::list::List;
use card::Card;

pub fn write(list: &mut List, draw: &mut Draw, count: u64) -> io::Result<()> {
    for card in by_hand() {
        card.put(list)?;
    }
    for number in 1..=count {
        drawn::card(draw, number).put(list)?;
    }
    Ok(())
}

fn by_hand() -> Vec<Card> {
    let mut cards = good::all();
    cards.extend(refused::all());
    cards.extend(layout::all());
    cards.extend(joined::all());
    cards.extend(checks::all());
    cards.extend(limits::all());
    cards
}

#[cfg(test)]
mod tests {
    use super::{by_hand, drawn};
    use crate::draw::Draw;

    /// The gate reads lines of at most 4,096 bytes.
    const LONGEST: usize = 4096;

    #[test]
    fn no_line_is_too_long() {
        for card in by_hand() {
            assert!(card.lines().all(|line| line.text().len() <= LONGEST));
        }
    }

    #[test]
    fn every_seed_draws_hands_that_fit() {
        for seed in 0..20 {
            let mut draw = Draw::new(seed);
            for number in 20..=50 {
                let card = drawn::card(&mut draw, number);
                assert!(card.lines().all(|line| line.text().len() <= LONGEST));
            }
        }
    }
}
