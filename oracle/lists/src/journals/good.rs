//! Hands of the right form, with all that can be asked of them.

use crate::journal::block::ENTRIES;
use crate::journal::entry::Four;
use crate::journal::hand::Line;
use crate::journal::{EDITION, Title};
use crate::journals::card::Card;
use crate::journals::tokens::spell;
use crate::key::Key;

pub const TITLE: Title = Title::new(Key::new(3, 2026, 7), EDITION);
pub const HAND: &str = "t 0 10 5 0 100 100 n n n p 5 p 10 b 20 f w 0 0";

pub fn all() -> Vec<Card> {
    let mut cards = vec![
        spelled("the smallest hand: a table with no stacks", "t 0 10 5 0"),
        spelled("a hand of document 01's worked script: its accepted lines", HAND),
        spelled("every letter", "t 1 2 1 0 50 60 70 n f b 7 p 8 x w 1 2 3"),
        spelled("a table with no stacks is settled by no ranks", "t 0 0 0 0 w w n w"),
        spelled("one stack, and a rank", "t 0 0 0 0 9 w 65535"),
        spelled("the number 0 last: only the count tells it", "t 0 10 5 0 9 9 b 0"),
        spelled("numbers 0 in a row", "t 0 0 0 0 0 0 w 0 0 p 0 b 0"),
        spelled("the largest numbers", "t 65535 65535 65535 65535 65535 w 65535 b 65535 p 65535"),
        spelled("numbers of one byte, low and high", "t 255 256 1 257 65280 2 b 255 p 256 b 65280"),
        spelled(
            "lines that a replay refuses: b 1, a dealer that is not there",
            "t 9 10 5 0 9 9 b 1 x x",
        ),
        spelled("numbers that have the codes of letters", "t 116 110 102 98 112 120 w 119 29696"),
    ];
    cards.extend(stacks());
    cards.extend(keys());
    cards.extend(over_blocks());
    cards.push(line_by_line());
    cards
}

fn spelled(what: &str, text: &str) -> Card {
    good(what, TITLE, &spell(text))
}

/// A hand of these entries, which is asked about.
pub fn good(what: &str, title: Title, tape: &[Four]) -> Card {
    let mut card = Card::new(what);
    card.begin(title);
    card.append(tape);
    show(&mut card, 40);
    card
}

/// A hand of these entries, written.
pub fn written(what: &str, tape: &[Four]) -> Card {
    let mut card = Card::new(what);
    card.begin(TITLE);
    card.append(tape);
    assert!(card.write().is_ok());
    card
}

/// A table of so many stacks, and its settlement.
fn stacks() -> Vec<Card> {
    let card = |stacks: usize| {
        let text = format!("t 0 10 5 0{} n w{}", " 9".repeat(stacks), " 1".repeat(stacks));
        spelled(&format!("a table with {stacks} stacks"), &text)
    };
    [15, 16, 17, 18, 115, 116, 300].into_iter().map(card).collect()
}

fn keys() -> Vec<Card> {
    let keys = [
        Key::new(0, 1, 0),
        Key::new(0x0102, 0x0304, 0x0506_0708),
        Key::new(1, 256, 65_536),
        Key::new(65_535, 65_535, u32::MAX),
        Key::new(2026, 7, 3),
    ];
    let card = |key| good(&format!("the key {key}"), Title::new(key, EDITION), &spell(HAND));
    keys.into_iter().map(card).collect()
}

/// So many entries, `n` where nothing else stands.
pub fn filled(entries: usize) -> Vec<Four> {
    let mut tape = spell(HAND);
    tape.resize(entries, [b'n', 0, 0, 0]);
    tape
}

/// Lines that lie over two blocks, each begun so many entries before the border.
fn over_blocks() -> Vec<Card> {
    let mut cards = Vec::new();
    for (line, most) in [("b 20", 2), ("p 0", 2), ("w 7 8", 3)] {
        for before in 0..=most {
            let mut tape = filled(ENTRIES - before);
            tape.extend(spell(&format!("{line} n")));
            cards.push(good(&format!("{line:?}, {before} entries before a border"), TITLE, &tape));
        }
    }
    cards
}

/// A letter, its numbers, and whether a hand may have such a line.
const LINES: &[(u8, &[u16], bool)] = &[
    (b't', &[0, 10, 5], false),
    (b't', &[0, 10, 5, 0, 9, 9], true),
    (b'n', &[0], false),
    (b'n', &[], true),
    (b'f', &[1], false),
    (b'f', &[], true),
    (b'b', &[], false),
    (b'b', &[1, 2], false),
    (b'b', &[258], true),
    (b'p', &[], false),
    (b'p', &[0, 0], false),
    (b'p', &[0], true),
    (b'x', &[0, 0], false),
    (b'x', &[], true),
    (b'k', &[3, 2026, 7], false),
    (b'k', &[], false),
    (b'l', &[1, 0, 9, 9], false),
    (b'T', &[0, 10, 5, 0, 9, 9], false),
    (b'a', &[], false),
    (b'm', &[], false),
    (b'o', &[1], false),
    (b'q', &[1], false),
    (b'v', &[1, 2], false),
    (b'y', &[], false),
    (b't', &[], false),
    (b'w', &[1, 65535], true),
];

/// A hand laid line by line, with lines between that no hand has.
fn line_by_line() -> Card {
    let mut card = Card::new("a hand laid line by line; 27 for a line that no hand has");
    card.begin(TITLE);
    for &(letter, numbers, is_laid) in LINES {
        let laid = card.append_line(&Line::new(letter, numbers));
        assert_eq!(laid, if is_laid { Ok(()) } else { Err(27) });
    }
    show(&mut card, 40);
    for ranks in [0, 1, 3, 20] {
        assert!(card.append_line(&Line::new(b'w', &vec![7; ranks])).is_ok());
    }
    assert_eq!(card.write(), Err(27));
    card
}

/// What is asked of a good hand: laid block by block, written, told, read, and so many of its lines.
pub fn show(card: &mut Card, lines: usize) {
    let blocks = card.tape.len().div_ceil(ENTRIES);
    for index in 0..blocks {
        assert_eq!(card.lay(index as u8, ENTRIES * index), Ok(index + 1 < blocks));
        assert!(card.read_block(index).is_ok());
    }
    assert_eq!(card.read(), Ok(card.tape.len()));
    assert_eq!(card.write(), Ok(blocks));
    for index in 0..blocks {
        if index < 2 || index + 1 == blocks {
            card.tell_block(index);
            assert!(card.read_block(index).is_ok());
        } else {
            card.tell_check(index);
        }
    }
    assert_eq!(card.read(), Ok(card.tape.len()));
    tell_lines(card, lines);
}

/// The first lines of a good hand, and its end.
pub fn tell_lines(card: &mut Card, most: usize) {
    let end = card.tape.len();
    let mut at = 0;
    for _ in 0..most {
        if at < end {
            at = card.tell_line(at);
        }
    }
    card.tell_line(end);
    card.tell_entry(end - 1);
}
