//! Hands of a given length, written by both sides.

use lists::journal::entry::Four;
use lists::journal::hand::{self, Line};
use lists::key::Key;
use peatcloak::arena::HandKey;
use peatcloak::journal::{Hand, JournalError, Title};

/// The smallest hand: a `t` with four numbers.
pub const SMALLEST: usize = 5;

pub fn key(number: u32) -> Key {
    Key::new(3, 2026, number)
}

/// The same key, as the library has it.
pub fn key_of(number: u32) -> HandKey {
    let Key { code, year, hand } = key(number);
    HandKey { code, year, hand }
}

/// So many entries: a `t` with no stacks, then bets of one number and an `n` where one entry is left over.
pub fn lines(entries: usize) -> Vec<Line> {
    let bets = (entries - SMALLEST) / 2;
    let mut lines = vec![Line::new(b't', &[0, 10, 5, 0])];
    lines.extend((0..bets).map(|i| Line::new(b'b', &[(i * 37 % 65_536) as u16])));
    if (entries - SMALLEST) % 2 == 1 {
        lines.push(Line::new(b'n', &[]));
    }
    lines
}

/// Written through the library.
pub fn ours(number: u32, lines: &[Line]) -> Result<Vec<u8>, JournalError> {
    let mut written = Hand::new(Title::new(key_of(number)));
    for line in lines {
        written.push(line.letter, &line.numbers)?;
    }
    written.write()
}

/// Written by the second writer.
pub fn theirs(number: u32, lines: &[Line]) -> Result<Vec<u8>, u32> {
    let tape: Vec<Four> = lines.iter().flat_map(Line::fours).collect();
    hand::write(lists::journal::Title::new(key(number), lists::journal::EDITION), &tape)
}
