//! The hand journal by the words of document 02, request 3, and their readings: a second writer and reader.
//! Nothing is taken over from the port.

pub mod block;
pub mod card;
pub mod entry;
pub mod hand;
pub mod script;
#[cfg(test)]
mod tests;

use crate::key::Key;

/// "Edition 1": the only one that is known.
pub const EDITION: u8 = 1;

/// What a hand's blocks say of it beside its entries.
#[derive(Clone, Copy, PartialEq, Eq, Debug)]
pub struct Title {
    pub key: Key,
    pub edition: u8,
}

impl Title {
    pub const fn new(key: Key, edition: u8) -> Self {
        Title { key, edition }
    }
}
