//! Ours: joins the carried files of this folder. rand (the generators in
//! game_state.rs) and tokio (an error in errors.rs) are stand-ins; only what is
//! left behind names them.

pub mod action;
pub mod errors;
pub mod game_state;

pub use self::game_state::*;
