//! Hands at random, of right form, each with its damages.

use crate::draw::Draw;
use crate::journal::block::{ENTRIES, MOST};
use crate::journal::entry::Four;
use crate::journal::hand::Line;
use crate::journal::{EDITION, Title};
use crate::journals::card::Card;
use crate::journals::damages;
use crate::journals::good;
use crate::key::Key;

/// One hand in so many is long.
const LONG: u64 = 25;

pub fn card(draw: &mut Draw, number: u64) -> Card {
    let mut card = Card::new(format!("drawn {number}"));
    card.begin(title(draw));
    match number % LONG {
        0 => long(draw, &mut card),
        _ => short(draw, &mut card),
    }
    for _ in 0..draw.within(12, 24) {
        damages::damage(draw, &mut card);
    }
    card
}

pub fn title(draw: &mut Draw) -> Title {
    let any = draw.bits();
    let code = draw.pick(&[0, 3, 255, 256, 65_535, any as u16]);
    let year = draw.pick(&[1, 255, 2025, 2026, 2027, 65_535, any as u16 | 1]);
    let hand = draw.pick(&[0, 7, 255, 65_535, 65_536, u32::MAX, (any >> 32) as u32]);
    Title::new(Key::new(code, year, hand), EDITION)
}

/// Numbers with many bytes 0 and 255.
fn number(draw: &mut Draw) -> u16 {
    let any = draw.bits() as u16;
    draw.pick(&[0, 5, 10, 20, 255, 256, 65_280, 65_535, any % 50, any % 2000, any])
}

fn numbers(draw: &mut Draw, count: usize) -> Vec<u16> {
    (0..count).map(|_| number(draw)).collect()
}

pub fn table(draw: &mut Draw) -> Line {
    let stacks = match draw.below(12) {
        0 => draw.below(2),
        1 => draw.within(17, 40),
        _ => draw.players(),
    };
    Line::new(b't', &numbers(draw, 4 + stacks))
}

/// A line of a hand whose table has so many stacks, in no more than so many entries.
fn line(draw: &mut Draw, stacks: usize, room: usize) -> Line {
    match draw.below(10) {
        0..=2 if room >= 2 => Line::new(b'b', &numbers(draw, 1)),
        3..=4 if room >= 2 => Line::new(b'p', &numbers(draw, 1)),
        5 if room > stacks => Line::new(b'w', &numbers(draw, stacks)),
        6 => Line::new(b'f', &[]),
        7 => Line::new(b'x', &[]),
        _ => Line::new(b'n', &[]),
    }
}

/// Further lines of exactly so many entries.
fn lines(draw: &mut Draw, stacks: usize, entries: usize) -> Vec<Line> {
    let mut lines = Vec::new();
    let mut room = entries;
    while room > 0 {
        let line = line(draw, stacks, room);
        room -= 1 + line.numbers.len();
        lines.push(line);
    }
    lines
}

/// A hand of one to four blocks, its last block full or nearly empty more often than by chance.
pub fn hand(draw: &mut Draw) -> Vec<Line> {
    let table = table(draw);
    let blocks = draw.pick(&[1, 1, 1, 2, 2, 3, 4]);
    let any = draw.within(1, ENTRIES);
    let in_last = draw.pick(&[1, 2, 60, 119, 120, any]);
    let entries = ENTRIES * (blocks - 1) + in_last;
    let stacks = table.numbers.len() - 4;
    let others = lines(draw, stacks, entries.saturating_sub(1 + table.numbers.len()));
    [vec![table], others].concat()
}

pub fn tape(lines: &[Line]) -> Vec<Four> {
    lines.iter().flat_map(Line::fours).collect()
}

/// One hand in six is laid line by line.
fn short(draw: &mut Draw, card: &mut Card) {
    let lines = hand(draw);
    if draw.once_in(6) {
        lines.iter().for_each(|line| card.append_line(line).expect("a line of a hand"));
    } else {
        card.append(&tape(&lines));
    }
    good::show(card, 12);
}

/// How many entries come again and again in a long hand, and how often.
const MOST_OFTEN: usize = 90;
const MOST_TIMES: usize = 60;

/// A hand of 200 to 255 blocks: some lines again and again.
fn long(draw: &mut Draw, card: &mut Card) {
    let table = table(draw);
    let stacks = table.numbers.len() - 4;
    let full = ENTRIES * MOST;
    let entries = if draw.once_in(2) { full } else { draw.within(ENTRIES * 200, full) };
    card.append(&table.fours());
    while entries - card.tape.len() > MOST_TIMES * MOST_OFTEN {
        let size = draw.within(20, MOST_OFTEN);
        let piece = tape(&lines(draw, stacks, size));
        card.append_often(draw.within(10, MOST_TIMES), &piece);
    }
    let rest = entries - card.tape.len();
    let size = draw.within(100, 300);
    let piece = tape(&lines(draw, stacks, size));
    card.append_often(rest / size, &piece);
    card.append(&tape(&lines(draw, stacks, rest % size)));
    assert_eq!(card.write(), Ok(entries.div_ceil(ENTRIES)));
    (0..card.blocks()).for_each(|index| card.tell_check(index));
    card.tell_block(draw.below(card.blocks()));
    assert_eq!(card.read(), Ok(entries));
}
