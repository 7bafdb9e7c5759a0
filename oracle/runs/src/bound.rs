//! The most accepted actions that demand 3 allows before nobody owes.

use rs_poker::arena::GameState;

use crate::order::{all_chips, chips};

/// q + (n - 1)(n + floor((T - b) / m)). In good order b is part of the pot, so
/// the difference is not below 0.
pub fn of(state: &GameState) -> usize {
    let n = state.num_players;
    let data = &state.round_data;
    let rises = (all_chips(state) - chips(data.bet)) / chips(data.min_raise);
    data.num_players_need_action() + (n - 1) * (n + rises)
}
