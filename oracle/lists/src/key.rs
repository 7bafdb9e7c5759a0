//! The key of a hand, by the words of document 02: "Year 0 means no key", and "a key with
//! year 0 and another part not 0" is refused. The Rust has none.

use std::fmt;

use crate::draw::Draw;
use crate::table::{Table, place};

#[derive(Clone, Copy, Default, PartialEq, Eq, Debug)]
pub struct Key {
    pub code: u16,
    pub year: u16,
    pub hand: u32,
}

impl Key {
    pub const NONE: Key = Key { code: 0, year: 0, hand: 0 };

    pub const fn new(code: u16, year: u16, hand: u32) -> Self {
        Key { code, year, hand }
    }

    pub fn is_good(self) -> bool {
        self.year != 0 || self == Key::NONE
    }

    /// The key of a table whose words are in range.
    pub fn of(table: &Table) -> Self {
        let half = |place| table.words[place] as u16;
        Key::new(half(place::KEY_CODE), half(place::KEY_YEAR), table.words[place::KEY_HAND])
    }

    pub fn put(self, table: &mut Table) {
        table.words[place::KEY_CODE] = self.code.into();
        table.words[place::KEY_YEAR] = self.year.into();
        table.words[place::KEY_HAND] = self.hand;
    }
}

/// As lists have it: code, year, hand.
impl fmt::Display for Key {
    fn fmt(&self, f: &mut fmt::Formatter<'_>) -> fmt::Result {
        write!(f, "{} {} {}", self.code, self.year, self.hand)
    }
}

/// Any good key, or none.
pub fn good(draw: &mut Draw) -> Key {
    let any = draw.bits() as u32;
    let hand = draw.pick(&[0, 1, 7, 65_535, 65_536, u32::MAX, any]);
    match draw.below(6) {
        0 => Key::NONE,
        1 => Key::new(0, draw.pick(&[1, u16::MAX]), hand),
        _ => Key::new(draw.bits() as u16, draw.within(2020, 2030) as u16, hand),
    }
}

/// Year 0 beside a code, a hand number or both.
pub fn bad(draw: &mut Draw) -> Key {
    let (code, hand) = (draw.pick(&[1, 5, u16::MAX]), draw.pick(&[1, 65_536, u32::MAX]));
    draw.pick(&[Key::new(code, 0, 0), Key::new(0, 0, hand), Key::new(code, 0, hand)])
}
