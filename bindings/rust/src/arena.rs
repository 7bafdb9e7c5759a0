//! rs_poker's `arena`, as far as a table needs it.

pub mod action;
pub mod errors;
pub mod game_state;

mod builder;
mod hand_key;
mod round;
mod round_data;

pub use game_state::*;
