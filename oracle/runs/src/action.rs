//! An accepted action, and asking the Rust for one.

use std::fmt;

use rs_poker::arena::GameState;

#[derive(Clone, Copy)]
pub enum Action {
    Fold,
    Bet(f32),
}

impl fmt::Display for Action {
    fn fmt(&self, to: &mut fmt::Formatter<'_>) -> fmt::Result {
        match self {
            Action::Fold => write!(to, "fold"),
            Action::Bet(amount) => write!(to, "bet {amount}"),
        }
    }
}

/// The Rust's own answer decides what is accepted. A refused bet changes nothing.
pub fn bet(state: &mut GameState, amount: f32) -> Option<Action> {
    state.do_bet(amount, false).is_ok().then_some(Action::Bet(amount))
}

pub fn fold(state: &mut GameState) -> Action {
    state.fold();
    Action::Fold
}

/// The counters are of eight bits and the Rust panics where one overflows. They
/// are set back before that; no other part of a bet or a fold reads them.
pub fn spare_counters(state: &mut GameState) {
    let data = &mut state.round_data;
    for counter in [&mut data.total_bet_count, &mut data.total_raise_count] {
        if *counter >= 250 {
            *counter = 0;
        }
    }
}
