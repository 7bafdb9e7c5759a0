//! The table: its steps, its queries, its fields.

mod fields;
mod queries;
mod steps;

pub use crate::arena::builder::GameStateBuilder;
pub use crate::arena::errors::GameStateBuilderError;
pub use crate::arena::hand_key::HandKey;
pub use crate::arena::round::Round;
pub use crate::arena::round_data::RoundData;
pub use crate::words::MAX_PLAYERS;

use crate::library;
use crate::places::{FLOATS, NUMBERS};
use crate::words::Words;

/// A table in good shape: a builder, its steps and `from_words` make no other, so steps on it are not refused with 19.
#[derive(Clone, Debug, PartialEq)]
pub struct GameState {
    pub(crate) words: Words,
}

impl GameState {
    /// The two arrays; `places` tells what stands where.
    pub fn words(&self) -> (&[f32; FLOATS], &[u32; NUMBERS]) {
        (&self.words.floats, &self.words.numbers)
    }

    /// The table that stands in two arrays, if it is sound.
    pub fn from_words(floats: [f32; FLOATS], numbers: [u32; NUMBERS]) -> Option<Self> {
        library::check();
        let state = GameState { words: Words { floats, numbers } };
        state.is_sound().then_some(state)
    }
}
