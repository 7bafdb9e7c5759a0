//! A difference, and how tables are told.

use std::fmt::Write;

use lists::line::{Line, listed};
use lists::places::NUMBERS;
use lists::table::{Table, WORDS, place};

use crate::same;

/// What was asked, and what each side said.
pub struct Difference {
    pub told: String,
}

impl Difference {
    pub fn new(told: String) -> Box<Self> {
        Box::new(Difference { told })
    }
}

/// The words that are not 0, as the oracle's lists show them; behind them the numbers that lists leave out.
pub fn shown(table: &Table) -> String {
    let text = Line::new('T').new_table(table).text().to_string();
    format!("{text}, numbers from {} on {:x?}", place::ADDED, &table.words[place::ADDED..NUMBERS])
}

/// The places where two tables differ, but for some, as lists have them; a number that lists leave out by its own.
pub fn tell_places(told: &mut String, ours: &Table, theirs: &Table, but: &[usize]) {
    for at in (0..WORDS).filter(|at| !but.contains(at) && !same::word(ours, theirs, *at)) {
        let (a, b) = (ours.words[at], theirs.words[at]);
        let name = listed(at).map_or(format!("number {at}"), |place| format!("place {place}"));
        write!(told, "{name}: ours {a:08x}, theirs {b:08x}").expect("text");
        if at >= NUMBERS {
            write!(told, " ({} and {})", f32::from_bits(a), f32::from_bits(b)).expect("text");
        }
        told.push('\n');
    }
}
