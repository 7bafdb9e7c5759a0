//! Blocks that are each right by themselves, and what the hand says to their order, keys and end.

use crate::journal::block::{BYTES, Bytes};
use crate::journal::entry::Four;
use crate::journal::{EDITION, Title, hand};
use crate::journals::card::Card;
use crate::journals::good::{HAND, filled, written};
use crate::journals::tokens::spell;
use crate::key::Key;

pub fn all() -> Vec<Card> {
    vec![orders(), ends(), lasts(), keys(), mixed(), numbered_anew(), cuts(), windows()]
}

/// A hand of three blocks whose entries differ from block to block.
fn three() -> Vec<Four> {
    let mut tape = filled(120);
    tape.extend(spell("b 20").repeat(60));
    tape.extend(spell("p 5 n").repeat(3));
    tape
}

fn asked(card: &mut Card, is_hand: bool) {
    assert_eq!(card.read().is_ok(), is_hand);
    card.restore();
}

/// Every order of three blocks.
fn orders() -> Card {
    let mut card = written("three blocks in every order", &three());
    (0..3).for_each(|index| card.tell_block(index));
    asked(&mut card, true);
    for swaps in [&[(0, 1)][..], &[(0, 2)], &[(1, 2)], &[(0, 1), (0, 2)], &[(0, 1), (1, 2)]] {
        swaps.iter().for_each(|&(one, other)| card.swap(one, other));
        (0..3).for_each(|index| assert!(card.read_block(index).is_ok()));
        asked(&mut card, false);
    }
    for (from, to) in [(0, 1), (0, 2), (1, 0), (1, 2), (2, 0), (2, 1)] {
        card.repeat(from, to);
        asked(&mut card, false);
    }
    card
}

/// What stands behind the last block, and what is missing.
fn ends() -> Card {
    let mut card = written("blocks after the last, and blocks that are missing", &three());
    for from in 0..3 {
        card.repeat(from, 3);
        asked(&mut card, false);
    }
    (0..3).for_each(|index| card.repeat(index, 3 + index));
    asked(&mut card, false);
    // A block that would be right, were it not for the last before it; then that is none any more.
    card.repeat(1, 2);
    card.repeat(1, 3);
    card.change_rightly(&[
        (2 * BYTES + 8, 2),
        (2 * BYTES + 9, 1),
        (3 * BYTES + 8, 3),
        (3 * BYTES + 9, 1),
    ]);
    assert_eq!(card.read(), Err(27));
    card.change_rightly(&[(2 * BYTES + 9, 0)]);
    assert_eq!(card.read(), Ok(480));
    asked(&mut card, true);
    // Without the first, and without the one between.
    card.repeat(1, 0);
    card.repeat(2, 1);
    card.cut(2 * BYTES);
    asked(&mut card, false);
    card.repeat(2, 1);
    card.cut(2 * BYTES);
    asked(&mut card, false);
    card
}

/// The mark of the last block.
fn lasts() -> Card {
    let mut card = written("the mark of the last block, with the check right", &filled(240));
    let marks = [(1, 1), (1, 0), (0, 0), (0, 1)];
    for (first, second) in marks {
        card.change_rightly(&[(9, first), (BYTES + 9, second)]);
        assert!(card.read_block(0).is_ok() && card.read_block(1).is_ok());
        asked(&mut card, (first, second) == (0, 1));
    }
    card.change_rightly(&[(9, 1)]);
    card.cut(BYTES);
    assert_eq!(card.read(), Ok(120), "the first block alone, closed");
    card.restore();
    card.cut(BYTES);
    asked(&mut card, false);
    card
}

/// A byte of the key in one block, and in both.
fn keys() -> Card {
    let mut card = written("the key of each block, with the check right", &filled(240));
    for place in 0..8 {
        for value in [0, 1, card.image[place] ^ 128, 255] {
            let changes = [(place, value), (BYTES + place, value)];
            for part in [&changes[..1], &changes[1..], &changes[..]] {
                let is_hand = value == card.image[place] || part.len() == 2;
                card.change_rightly(part);
                assert!(card.read_block(0).is_ok() && card.read_block(1).is_ok());
                asked(&mut card, is_hand);
            }
        }
    }
    card
}

fn blocks_of(title: Title, tape: &[Four]) -> Vec<Bytes> {
    let bytes = hand::write(title, tape).expect("a hand");
    bytes.chunks_exact(BYTES).map(|block| block.try_into().expect("a block")).collect()
}

/// The same lines under other keys, block by block.
fn mixed() -> Card {
    let mut card =
        written("blocks of another hand: last year's, the next table's, the next one", &three());
    for key in [
        Key::new(3, 2025, 7),
        Key::new(4, 2026, 7),
        Key::new(3, 2026, 8),
        Key::new(3, 2026, 65_543),
    ] {
        let other = blocks_of(Title::new(key, EDITION), &three());
        for (index, block) in other.iter().enumerate() {
            card.lay_bytes(index, block);
            assert!(card.read_block(index).is_ok());
            asked(&mut card, false);
        }
    }
    let next = blocks_of(Title::new(Key::new(3, 2026, 8), EDITION), &spell(HAND));
    card.lay_bytes(3, &next[0]);
    assert!(card.read_block(3).is_ok());
    asked(&mut card, false);
    card
}

/// Blocks in another order, numbered and marked anew: the lines decide.
fn numbered_anew() -> Card {
    let mut tape = three();
    tape.resize(360, [b'n', 0, 0, 0]);
    let what = "blocks in another order, numbered anew, with the check right";
    let mut card = written(what, &tape);
    card.swap(1, 2);
    card.change_rightly(&[(BYTES + 8, 1), (BYTES + 9, 0), (2 * BYTES + 8, 2), (2 * BYTES + 9, 1)]);
    assert_eq!(card.read(), Ok(360));
    card.tell_line(120);
    card.tell_line(240);
    card.restore();
    card.swap(0, 1);
    card.change_rightly(&[(8, 0), (BYTES + 8, 1)]);
    asked(&mut card, false);
    // The first block again as the second: a second table.
    card.repeat(0, 1);
    card.change_rightly(&[(BYTES + 8, 1)]);
    asked(&mut card, false);
    card
}

fn cuts() -> Card {
    let mut card = written("cut, and lengthened with zeros", &filled(300));
    for length in
        [0, 1, 16, 509, 511, 512, 513, 1023, 1024, 1025, 1534, 1535, 1536, 1537, 2047, 2048]
    {
        card.cut(length);
        let _ = card.read_block(length / BYTES);
        asked(&mut card, length == 3 * BYTES);
    }
    card
}

/// The reader of blocks takes exactly 512 bytes.
fn windows() -> Card {
    let mut card = written("exactly 512 bytes are a block", &filled(150));
    for (from, length) in
        [(0, 0), (0, 1), (0, 510), (0, 511), (0, 513), (0, 1024), (1, 512), (511, 512)]
    {
        assert_eq!(card.read_bytes(from, length), Err(27));
    }
    for (from, length) in [(513, 511), (513, 512), (1023, 1), (1024, 512)] {
        assert_eq!(card.read_bytes(from, length), Err(27));
    }
    assert!(card.read_bytes(0, 512).is_ok() && card.read_bytes(512, 512).is_ok());
    card
}
