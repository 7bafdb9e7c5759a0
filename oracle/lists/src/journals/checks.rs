//! What the check finds and what it does not.

use crate::journal::block::CHECK;
use crate::journal::{EDITION, Title, hand};
use crate::journals::card::{Card, Change};
use crate::journals::good::{HAND, written};
use crate::journals::tokens::spell;
use crate::key::Key;

pub fn all() -> Vec<Card> {
    let mut cards: Vec<Card> = [(0, 255), (254, 255), (127, 255), (1, 0), (254, 0), (0, 1)]
        .into_iter()
        .flat_map(check_bytes)
        .collect();
    cards.extend([bits(), zeros_for_255(), two_bytes(), apart()]);
    cards
}

/// A hand whose check byte has one value, and another in its place.
fn check_bytes((value, other): (u8, u8)) -> [Card; 2] {
    [CHECK, CHECK + 1].map(|place| {
        let title_of = |number| Title::new(Key::new(3, 2026, number), EDITION);
        let has_it = |&number: &u32| {
            hand::write(title_of(number), &spell(HAND)).expect("a hand")[place] == value
        };
        let title = title_of((0..10_000).find(has_it).expect("one hand in 255"));
        let mut card = Card::new(format!("byte {place} is {value}, and then {other}"));
        card.begin(title);
        card.append(&spell(HAND));
        assert_eq!(card.write(), Ok(1));
        card.tell_check(0);
        card.change(&[(place, other)]);
        assert_eq!(card.read_block(0), Err(27));
        assert_eq!(card.read(), Err(27));
        card
    })
}

fn asked(card: &mut Card, changes: &[Change]) -> bool {
    card.change(changes);
    card.tell_check(0);
    let is_hand = card.read().is_ok();
    card.restore();
    is_hand
}

/// Each bit of some bytes.
fn bits() -> Card {
    let mut card = written("one bit, at these places", &spell(HAND));
    for place in [0, 2, 7, 8, 9, 10, 11, 12, 16, 22, 95, 96, 254, 255, 256, 496, 509, 510, 511] {
        for bit in 0..8 {
            let value = card.image[place] ^ 1 << bit;
            assert!(!asked(&mut card, &[(place, value)]), "{place}");
        }
    }
    card
}

/// 0 for 255 and back moves no check: what is left of the layout decides.
fn zeros_for_255() -> Card {
    let mut card = written(
        "0 for 255 and back: the check is the same",
        &spell("t 255 65535 0 255 65280 0 b 0 b 255 p 65280 n"),
    );
    for place in (0..64).chain([495, 496, 509]) {
        match card.image[place] {
            0 => drop(asked(&mut card, &[(place, 255)])),
            255 => drop(asked(&mut card, &[(place, 0)])),
            _ => (),
        }
    }
    card
}

/// Two bytes that leave the sum as it is: the running totals tell.
fn two_bytes() -> Card {
    let mut card =
        written("two bytes changed: the sum is the same, the running totals are not", &spell(HAND));
    for (one, other) in [(0, 4), (4, 5), (16, 20), (26, 30), (38, 42), (26, 27), (60, 68)] {
        let (a, b) = (card.image[one], card.image[other]);
        assert!(a == b || !asked(&mut card, &[(one, b), (other, a)]), "{one} {other}");
        assert!(!asked(&mut card, &[(one, a.wrapping_add(1)), (other, b.wrapping_sub(1))]));
    }
    card
}

/// Two bytes 255 places apart are as often in the running totals.
fn apart() -> Card {
    let mut card = written(
        "two bytes 255 places apart: one up, one down, and the check is the same",
        &spell(&format!("{HAND}{}", " b 513".repeat(50))),
    );
    let places: Vec<usize> =
        (16..250).filter(|&at| card.image[at] == 2 && card.image[at + 255] == 1).collect();
    for &place in &places[..10] {
        assert!(asked(&mut card, &[(place, 3), (place + 255, 0)]));
        assert!(asked(&mut card, &[(place, 1), (place + 255, 2)]));
        assert!(!asked(&mut card, &[(place, 3), (place + 251, 0)]));
    }
    card
}
