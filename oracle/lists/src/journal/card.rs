//! A card: a file of hands, one after another, read from its front as docs/CARD.md tells it.

use crate::journal::block;
use crate::journal::hand::{self, Hand};
use crate::key::Key;

/// A hand, and the block of the card that it begins at.
#[derive(PartialEq, Eq, Debug)]
pub struct Placed {
    pub first: usize,
    pub hand: Hand,
}

impl Placed {
    pub fn key(&self) -> Key {
        self.hand.title.key
    }
}

/// The hands up to the end, or up to the block where the card does not read on.
#[derive(PartialEq, Eq, Debug)]
pub struct Card {
    pub hands: Vec<Placed>,
    pub bad: Option<usize>,
}

pub fn read(bytes: &[u8]) -> Card {
    let parts: Vec<&[u8]> = bytes.chunks(block::BYTES).collect();
    let (mut hands, mut first) = (Vec::new(), 0);
    while first < parts.len() {
        match hand_of(&parts[first..]) {
            Ok(hand) => {
                let blocks = hand.blocks;
                hands.push(Placed { first, hand });
                first += blocks;
            }
            Err(behind) => return Card { hands, bad: Some(first + behind) },
        }
    }
    Card { hands, bad: None }
}

/// The hand that begins here, or how far behind its first block the trouble is: where each block is good and the
/// entries are no lines, the whole hand is, from its first block on.
fn hand_of(parts: &[&[u8]]) -> Result<Hand, usize> {
    let blocks = blocks_of(parts)?;
    hand::read(&parts[..blocks].concat()).map_err(|_| 0)
}

/// How many blocks there are up to the last of the hand, or the first that is missing, torn, damaged or another's.
fn blocks_of(parts: &[&[u8]]) -> Result<usize, usize> {
    let mut title = None;
    for (at, part) in parts.iter().enumerate() {
        let block = block::read(part).map_err(|_| at)?;
        if usize::from(block.index) != at || *title.get_or_insert(block.title) != block.title {
            return Err(at);
        }
        if block.is_last {
            return Ok(at + 1);
        }
    }
    Err(parts.len())
}

#[cfg(test)]
mod tests {
    use super::read;
    use crate::journal::block::{BYTES, put_check};
    use crate::journal::hand::{self, Line};
    use crate::journal::{EDITION, Title};
    use crate::key::Key;

    /// A hand of so many lines `n` behind its table.
    fn image(number: u32, count: usize) -> Vec<u8> {
        let mut lines = vec![Line::new(b't', &[0, 10, 5, 0])];
        lines.resize(count + 1, Line::new(b'n', &[]));
        let tape: Vec<_> = lines.iter().flat_map(Line::fours).collect();
        hand::write(Title::new(Key::new(3, 2026, number), EDITION), &tape).expect("a hand")
    }

    /// Hands of one, two and one block.
    fn three() -> Vec<u8> {
        [image(1, 0), image(2, 200), image(3, 0)].concat()
    }

    fn told(bytes: &[u8]) -> (usize, Option<usize>) {
        let card = read(bytes);
        (card.hands.len(), card.bad)
    }

    #[test]
    fn hands_stand_one_after_another() {
        let card = read(&three());
        let places: Vec<_> =
            card.hands.iter().map(|h| (h.key().hand, h.first, h.hand.blocks)).collect();
        assert_eq!(places, [(1, 0, 1), (2, 1, 2), (3, 3, 1)]);
        assert_eq!((card.bad, told(&[])), (None, (0, None)));
    }

    #[test]
    fn a_cut_is_seen_at_the_first_block_that_is_not_there_whole() {
        let bytes = three();
        let cut = |length| told(&bytes[..length]);
        assert_eq!([cut(1), cut(511), cut(512)], [(0, Some(0)), (0, Some(0)), (1, None)]);
        assert_eq!([cut(513), cut(1024), cut(1025)], [(1, Some(1)), (1, Some(2)), (1, Some(2))]);
        assert_eq!([cut(1536), cut(2047)], [(2, None), (2, Some(3))]);
    }

    #[test]
    fn a_block_that_is_damaged_or_out_of_its_place_is_named() {
        let mut bytes = three();
        bytes[2 * BYTES + 20] ^= 1;
        assert_eq!(told(&bytes), (1, Some(2)));
        let moved = [image(2, 200), image(1, 0)].concat();
        assert_eq!(told(&moved[BYTES..]), (0, Some(0)));
        let other = [&image(1, 200)[..BYTES], &image(2, 200)[BYTES..]].concat();
        assert_eq!(told(&other), (0, Some(1)));
    }

    #[test]
    fn a_hand_whose_entries_are_no_lines_is_bad_from_its_first_block_on() {
        let mut bytes = three();
        bytes[BYTES + 16] = b'n';
        put_check(&mut bytes[BYTES..2 * BYTES]);
        assert_eq!(told(&bytes), (1, Some(1)));
    }
}
