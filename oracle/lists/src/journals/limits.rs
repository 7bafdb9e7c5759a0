//! Hands at both sides of a block's end, and of the most blocks that a hand may have.

use crate::journal::block::{BYTES, ENTRIES, MOST};
use crate::journal::{EDITION, Title};
use crate::journals::card::Card;
use crate::journals::good::{HAND, TITLE, filled, good};
use crate::journals::tokens::spell;
use crate::key::Key;

pub fn all() -> Vec<Card> {
    let mut cards: Vec<Card> = [119, 120, 121, 239, 240, 241, 360, 361]
        .into_iter()
        .map(|entries| good(&format!("{entries} entries"), TITLE, &filled(entries)))
        .collect();
    let full = ENTRIES * MOST;
    cards.extend([full - 121, full - 120, full - 119, full - 1, full].map(long));
    cards.extend([too_long(), long_and_bad(), late_blocks(), long_table()]);
    cards
}

/// So many entries, with little to read in the list.
fn spelled(what: String, title: Title, entries: usize, end: &str) -> Card {
    let mut card = Card::new(what);
    let (hand, end) = (spell(HAND), spell(end));
    let bets = (entries - hand.len() - end.len()) / 2;
    card.begin(title);
    card.append(&hand);
    card.append_often(bets, &spell("b 7"));
    card.append(&vec![[b'n', 0, 0, 0]; entries - hand.len() - end.len() - 2 * bets]);
    card.append(&end);
    assert_eq!(card.tape.len(), entries);
    card
}

fn long(entries: usize) -> Card {
    let mut card = spelled(format!("{entries} entries"), TITLE, entries, "p 300");
    let blocks = entries.div_ceil(ENTRIES);
    assert_eq!(card.write(), Ok(blocks));
    (0..blocks).for_each(|index| card.tell_check(index));
    for index in [0, 1, 127, blocks - 1] {
        card.tell_block(index);
        assert!(card.read_block(index).is_ok());
    }
    assert_eq!(card.read(), Ok(entries));
    for at in [entries - 2, entries] {
        card.tell_line(at);
    }
    for index in [0, 1, 200, blocks - 1] {
        assert_eq!(card.lay(index as u8, ENTRIES * index), Ok(index + 1 < blocks));
        card.tell_check(index);
    }
    card.cut(BYTES * (blocks - 1));
    assert_eq!(card.read(), Err(27));
    card.restore();
    card.repeat(blocks - 1, blocks);
    assert_eq!(card.read(), Err(27));
    card
}

fn too_long() -> Card {
    let full = ENTRIES * MOST;
    let mut card = spelled(format!("28: {} entries", full + 1), TITLE, full + 1, "n");
    assert_eq!(card.write(), Err(28));
    assert_eq!(card.lay(0, 0), Err(28));
    assert_eq!(card.lay(0, 1), Ok(true));
    assert_eq!(card.lay(1, 120), Err(28));
    assert_eq!(card.lay(254, 120 * 254), Err(28));
    assert_eq!(card.lay(255, 120 * 255), Err(28));
    assert_eq!(card.lay(254, 120 * 254 + 1), Ok(false));
    card.append(&spell("b 1").repeat(59));
    assert_eq!(card.tape.len(), full + 119);
    assert_eq!(card.write(), Err(28));
    card.append(&spell("n"));
    assert_eq!(card.write(), Err(28));
    card
}

fn long_and_bad() -> Card {
    let full = ENTRIES * MOST;
    let mut card =
        spelled("27 comes before 28 in a hand that is too long".to_string(), TITLE, full + 1, "b");
    assert_eq!(card.write(), Err(27));
    card.append(&spell("9 t"));
    assert_eq!(card.write(), Err(27));
    card.begin(Title::new(Key::NONE, EDITION));
    card.append(&spell(HAND));
    card.append_often(full, &spell("x"));
    assert_eq!(card.write(), Err(28));
    card.append(&spell("k"));
    assert_eq!(card.write(), Err(27));
    card.begin(Title::new(TITLE.key, 2));
    card.append(&spell(HAND));
    card.append_often(full, &spell("f"));
    assert_eq!(card.write(), Err(27));
    card
}

/// Blocks with high numbers, laid from few entries.
fn late_blocks() -> Card {
    let mut card = Card::new("the last numbers of a block: 254 is the last that a hand may end on");
    card.begin(TITLE);
    card.append(&filled(241));
    for (index, from, answer) in [
        (254, 241, Err(27)),
        (255, 241, Err(27)),
        (254, 300, Err(27)),
        (254, 121, Ok(false)),
        (254, 120, Err(28)),
        (253, 1, Ok(true)),
        (253, 0, Err(28)),
        (252, 0, Ok(true)),
        (255, 240, Err(28)),
        (255, 0, Err(28)),
        (254, 240, Ok(false)),
        (0, 0, Ok(true)),
        (7, 3, Ok(true)),
        (1, 121, Ok(false)),
    ] {
        assert_eq!(card.lay(index, from), answer, "{index} {from}");
        if answer.is_ok() {
            assert!(card.read_block(index.into()).is_ok());
        }
    }
    assert_eq!(card.read(), Err(27));
    card.append(&spell(":00000001"));
    assert_eq!(card.lay(255, 241), Err(27));
    assert_eq!(card.lay(254, 0), Err(28));
    assert_eq!(card.lay(254, 122), Err(27));
    card
}

/// One line that fills a hand.
fn long_table() -> Card {
    let mut card = Card::new("one table of 30,600 entries, and with one more");
    card.begin(TITLE);
    card.append(&spell("t 1 2 3 4"));
    card.append_often(ENTRIES * MOST - 5, &spell("77"));
    assert_eq!(card.write(), Ok(MOST));
    card.tell_block(254);
    assert_eq!(card.read(), Ok(ENTRIES * MOST));
    card.tell_line(0);
    card.append(&spell("77"));
    assert_eq!(card.write(), Err(28));
    card.append(&spell("n 0"));
    assert_eq!(card.write(), Err(27));
    card
}
