//! rs_poker's `core`, as far as a table needs it.

mod player_bit_set;

pub use player_bit_set::{ActivePlayerBitSetIter, PlayerBitSet};
