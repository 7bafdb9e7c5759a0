//! What the writer refuses, in its order. Blocks are laid of it where they can be, and then the reader refuses the hand.

use crate::journal::block::ENTRIES;
use crate::journal::entry::Four;
use crate::journal::{EDITION, Title};
use crate::journals::card::Card;
use crate::journals::good::{HAND, TITLE, filled};
use crate::journals::tokens::spell;
use crate::key::Key;
use crate::refusals::Refusal;

pub fn all() -> Vec<Card> {
    let mut cards = first_lines();
    cards.extend(further_lines());
    cards.extend(no_entries());
    cards.extend(titles());
    cards.extend(orders());
    cards
}

/// A hand that is refused by this number. What is laid of it block by block is no hand either.
fn refused(what: &str, number: Refusal, title: Title, tape: &[Four]) -> Card {
    let mut card = Card::new(format!("{number}: {what}"));
    card.begin(title);
    card.append(tape);
    assert_eq!(card.write(), Err(number), "{what}");
    let mut is_laid = true;
    for index in 0..tape.len().div_ceil(ENTRIES).max(1) {
        is_laid = is_laid && card.lay(index as u8, ENTRIES * index).is_ok();
    }
    if is_laid {
        assert!(card.read_block(0).is_ok());
    }
    assert_eq!(card.read(), Err(27), "{what}");
    card
}

fn first_lines() -> Vec<Card> {
    let texts = [
        "",
        "n",
        "f",
        "x",
        "b 20",
        "p 5",
        "w",
        "w 0 0",
        "0",
        "0 0 0 0 0",
        "t",
        "t 0",
        "t 0 10",
        "t 0 10 5",
        "t 0 10 5 n",
        "n t 0 10 5 0 9 9",
        "0 t 0 10 5 0 9 9",
        "t t 0 10 5 0 9 9",
        "k 3 2026 7 t 0 10 5 0 9 9",
        "l 1 0 9 9",
        "T 0 10 5 0 9 9",
    ];
    let card = |text: &str| refused(&format!("no hand: {text:?}"), 27, TITLE, &spell(text));
    texts.into_iter().map(card).collect()
}

/// A line that must not stand there, at the end of a hand and within it.
fn further_lines() -> Vec<Card> {
    let lines = [
        "t 0 10 5 0 100 100",
        "t",
        "t 0 10 5",
        "k 3 2026 7",
        "k 0 0 0",
        "l 1 0 100 100",
        "a",
        "n 0",
        "f 1",
        "x 0",
        "b",
        "b 20 20",
        "p",
        "p 5 5",
        "w",
        "w 0",
        "w 0 0 0",
        "w 0 0 w 0",
    ];
    let mut cards = Vec::new();
    for line in lines {
        let (last, within) = (format!("{HAND} {line}"), format!("{HAND} {line} n w 1 1"));
        cards.push(refused(&format!("{line:?} as the last line"), 27, TITLE, &spell(&last)));
        cards.push(refused(&format!("{line:?} within a hand"), 27, TITLE, &spell(&within)));
    }
    cards.extend(at_a_border());
    cards
}

/// Entries that must not stand at the end of a block or at the head of the next.
fn at_a_border() -> [Card; 4] {
    let cards = [
        ("a table at the head of the second block", ENTRIES, "t 0 10 5 0 100 100"),
        ("a bet at a border, and its number is not there", ENTRIES - 1, "b n"),
        ("a number at the head of the second block, after n", ENTRIES, "0"),
        ("no entry at the head of the second block", ENTRIES, ":00010074"),
    ];
    cards.map(|(what, entries, end)| {
        let tape = [filled(entries), spell(end)].concat();
        refused(what, 27, TITLE, &tape)
    })
}

/// Four bytes that are no entry, as a number and as a letter.
fn no_entries() -> Vec<Card> {
    let words = [
        ":00000001",
        ":000000ff",
        ":00000100",
        ":0000ffff",
        ":00010001",
        ":00000174",
        ":00010074",
        ":01000074",
        ":0001006e",
        ":000000f4",
        ":0000000a",
        ":00000030",
    ];
    let mut cards = Vec::new();
    for word in words {
        let (number, letter) = (format!("{HAND} b {word} n"), format!("{HAND} {word}"));
        cards.push(refused(&format!("{word} is no number"), 27, TITLE, &spell(&number)));
        cards.push(refused(&format!("{word} is no letter"), 27, TITLE, &spell(&letter)));
    }
    cards
}

fn titles() -> Vec<Card> {
    let mut cards = Vec::new();
    for edition in [0, 2, 3, 128, 255] {
        let what = format!("edition {edition}");
        cards.push(refused(&what, 27, Title::new(TITLE.key, edition), &spell(HAND)));
    }
    for key in [Key::NONE, Key::new(3, 0, 7), Key::new(0, 0, 7), Key::new(65_535, 0, 0)] {
        let what = format!("the key {key}");
        cards.push(refused(&what, 28, Title::new(key, EDITION), &spell(HAND)));
    }
    cards
}

/// 27 comes before 28.
fn orders() -> Vec<Card> {
    let no_key = |edition| Title::new(Key::NONE, edition);
    vec![
        refused("no key and no lines", 27, no_key(EDITION), &[]),
        refused("no key and a bad line", 27, no_key(EDITION), &spell("t 0 10 5 0 b")),
        refused("no key and another edition", 27, no_key(2), &spell(HAND)),
        refused("no key and what is no entry", 27, no_key(EDITION), &spell("t 0 10 5 :00000001")),
        refused("no key and a second table", 27, no_key(EDITION), &spell("t 0 0 0 0 t 0 0 0 0")),
        refused("no key, over two blocks", 28, no_key(EDITION), &filled(130)),
    ]
}
