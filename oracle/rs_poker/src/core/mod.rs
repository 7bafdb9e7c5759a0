//! Ours: joins the carried files of this folder. `Rank` below and rand are
//! stand-ins; only what is left behind names them.

mod card;
mod card_bit_set;
mod card_iter;
mod deck;
mod error;
mod flat_deck;
mod flat_hand;
mod hand;
mod player_bit_set;

pub use self::card::{Card, Suit, Value};
pub use self::card_bit_set::{CardBitSet, CardBitSetIter};
pub use self::card_iter::*;
pub use self::deck::Deck;
pub use self::error::RSPokerError;
pub use self::flat_deck::FlatDeck;
pub use self::flat_hand::*;
pub use self::hand::*;
pub use self::player_bit_set::{ActivePlayerBitSetIter, PlayerBitSet};

/// Stand-in: the event payloads in action.rs name it, and they are left behind.
#[derive(Debug, Clone, Copy, PartialEq)]
pub struct Rank;
