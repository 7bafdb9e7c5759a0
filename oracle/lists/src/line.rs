//! One line of a list, put together token by token.

use std::fmt::{Display, Write};

use crate::bits;
use crate::places::NUMBERS;
use crate::refusals::Refusal;
use crate::table::{Table, WORDS, place};

pub struct Line {
    text: String,
}

impl Line {
    pub fn new(letter: char) -> Self {
        Line { text: letter.to_string() }
    }

    pub fn token(mut self, token: impl Display) -> Self {
        write!(self.text, " {token}").expect("a string takes any text");
        self
    }

    pub fn flag(self, flag: bool) -> Self {
        self.token(flag as u8)
    }

    pub fn float(self, x: f32) -> Self {
        self.token(format_args!("{:08x}", bits::of(x)))
    }

    /// A signed number as the hex digits of its bits.
    pub fn signed(self, n: i32) -> Self {
        self.token(format_args!("{n:08x}"))
    }

    pub fn floats(self, xs: &[f32]) -> Self {
        xs.iter().fold(self, |line, &x| line.float(x))
    }

    /// What follows is the answer.
    pub fn answer(self) -> Self {
        self.token('=')
    }

    pub fn refused(self, number: Refusal) -> Self {
        self.token('!').token(number)
    }

    /// The words of `after` that differ from `before`.
    pub fn changes(self, before: &Table, after: &Table) -> Self {
        let changed = (0..WORDS).filter(|&at| before.words[at] != after.words[at]);
        let told = changed.filter_map(|at| Some((listed(at)?, after.words[at])));
        told.fold(self, |line, (place, word)| line.token(format_args!("{place}:{word:08x}")))
    }

    /// A table that stands for itself: what differs from zeros.
    pub fn new_table(self, table: &Table) -> Self {
        self.changes(&Table::ZEROS, table)
    }

    pub fn text(&self) -> &str {
        &self.text
    }
}

/// A place as lists tell it. They have what the Rust's record has: the floats follow right behind its
/// numbers, however many are added to those.
pub fn listed(at: usize) -> Option<usize> {
    match at {
        NUMBERS.. => Some(place::ADDED + at - NUMBERS),
        _ => (at < place::ADDED).then_some(at),
    }
}
