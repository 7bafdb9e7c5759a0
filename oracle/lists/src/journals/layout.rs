//! A block whose layout is broken in one place, with its check put right and without.

use crate::journal::block::BYTES;
use crate::journals::card::{Card, Change};
use crate::journals::good::{HAND, TITLE, filled, written};
use crate::journals::tokens::spell;

pub fn all() -> Vec<Card> {
    let mut cards: Vec<Card> = (0..16).map(head).collect();
    cards.push(zeros());
    cards.push(unused());
    cards.push(counts());
    cards.push(no_entries());
    cards.push(no_year());
    cards.extend(
        [(0, "t"), (2, "10"), (6, "100"), (7, "n"), (11, "5"), (16, "f"), (19, "0")].map(entries),
    );
    cards.push(second_block());
    cards
}

/// The image with these changes is read: its block, and as a hand. Then it is again as it was written.
fn try_block(card: &mut Card, block: usize, changes: &[Change]) {
    card.change_rightly(changes);
    let _ = card.read_block(block);
    let _ = card.read();
    card.restore();
}

/// A byte of the head with telling values.
fn head(place: usize) -> Card {
    let mut card = written(&format!("byte {place}, with the check right"), &spell(HAND));
    card.tell_block(0);
    for value in [0, 1, 2, 5, 7, 19, 20, 21, 119, 120, 121, 254, 255] {
        if card.image[place] != value {
            try_block(&mut card, 0, &[(place, value)]);
        }
    }
    card.change(&[(place, card.image[place] ^ 1)]);
    assert_eq!(card.read_block(0), Err(27), "the check is not right");
    assert_eq!(card.read(), Err(27));
    card
}

/// Bytes 12 to 15 and 496 to 509, beside a block that is full.
fn zeros() -> Card {
    let mut card = written("bytes 12 to 15 and 496 to 509 are zero", &filled(120));
    for place in (12..16).chain(496..510) {
        for value in [1, 255] {
            card.change_rightly(&[(place, value)]);
            assert_eq!(card.read_block(0), Err(27), "{place}");
            card.restore();
        }
        // 0 for 255 does not move the check.
        card.change(&[(place, 255)]);
        assert_eq!(card.read_block(0), Err(27), "{place}");
        card.restore();
    }
    card
}

/// The bytes of entries over the count.
fn unused() -> Card {
    let mut card = written("entries over the count are zero", &spell(HAND));
    let first = 16 + 4 * card.tape.len();
    for place in (first..first + 8).chain([200, 201, 202, 203]).chain(488..496) {
        for value in [1, b'n', 255] {
            card.change_rightly(&[(place, value)]);
            assert_eq!(card.read_block(0), Err(27), "{place}");
            card.restore();
        }
    }
    card
}

/// What is right by the count alone: an entry more, an entry less.
fn counts() -> Card {
    let mut card = Card::new("an entry more and less: number 0 is an entry that is used");
    for text in ["t 0 10 5 0 9 9", "t 0 10 5 0 9 9 n", "t 0 10 5 0 9 0", "t 0 10 5 0 0 b 0"] {
        card.begin(TITLE);
        card.append(&spell(text));
        assert_eq!(card.write(), Ok(1));
        let used = card.image[10];
        for other in used - 2..=used + 2 {
            if other != used {
                try_block(&mut card, 0, &[(10, other)]);
            }
        }
        // A letter more, counted.
        let place = 16 + 4 * usize::from(used);
        try_block(&mut card, 0, &[(10, used + 1), (place, b'n')]);
    }
    card
}

/// Year 0 in a block, alone and in all of a hand.
fn no_year() -> Card {
    let mut card = written("year 0, with the check right", &filled(130));
    let changes = [(2, 0), (3, 0), (BYTES + 2, 0), (BYTES + 3, 0)];
    for (part, is_good) in [(0..2, [false, true]), (2..4, [true, false]), (0..4, [false; 2])] {
        card.change_rightly(&changes[part]);
        assert_eq!([0, 1].map(|block| card.read_block(block).is_ok()), is_good);
        assert_eq!(card.read(), Err(27));
        card.restore();
    }
    card.change_rightly(&[(0, 0), (2, 1), (3, 0), (4, 0)]);
    assert!(card.read_block(0).is_ok(), "year 1, and no other part of a key");
    card.change_rightly(&[(2, 0)]);
    assert_eq!(card.read_block(0), Err(27), "no key");
    card
}

/// No entry is used, and all are zero.
fn no_entries() -> Card {
    let mut card = written("no entry is used: all else is right", &spell("t 0 0 0 0"));
    card.change_rightly(&[(10, 0), (16, 0)]);
    assert_eq!(card.read_block(0), Err(27));
    assert_eq!(card.read(), Err(27));
    card.change_rightly(&[(10, 1)]);
    assert!(card.read_block(0).is_ok());
    assert_eq!(card.read(), Err(27));
    card
}

/// Entries, and what is none.
const OTHERS: &str = "t n f b p x w k l T 0 1 5 65535 :00000001 :00000100 :00010001 :00000174 \
                      :00010074 :0100006e :0000ffff";

/// An entry with others in its place, the check right.
fn entries((at, old): (usize, &str)) -> Card {
    let mut card = written(&format!("entry {at}, {old}, and others in its place"), &spell(HAND));
    for four in spell(OTHERS) {
        let changes: Vec<Change> = (16 + 4 * at..).zip(four).collect();
        try_block(&mut card, 0, &changes);
    }
    card
}

/// The second block of two: what it says of itself, and what the hand says.
fn second_block() -> Card {
    let mut card = written("the second block of a hand, with the check right", &filled(130));
    card.tell_block(1);
    for place in (0..12).chain([12, 15, 16 + 40, 495, 496, 509]) {
        for value in [0, 1, 2, 9, 11, 120, b't', b'n', 254, 255] {
            if card.image[BYTES + place] != value {
                try_block(&mut card, 1, &[(BYTES + place, value)]);
            }
        }
    }
    card
}
