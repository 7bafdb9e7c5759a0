//! The longest run there is, found by trying every accepted action. Only for
//! tables so small that this takes a moment.

use rs_poker::arena::GameState;

use crate::action::{Action, bet, fold};
use crate::order::chips;

/// Whether a table is small enough: it decides how many runs there are.
pub fn is_small(state: &GameState) -> bool {
    let stacks: usize = state.stacks.iter().copied().map(chips).sum();
    state.num_players <= 4 && stacks <= 12
}

/// The first action of a longest run.
pub fn act(state: &mut GameState) -> Action {
    let next = nexts(state).into_iter().max_by_key(|(_, after)| length(after));
    let (action, after) = next.expect("a seat that owes can fold");
    *state = after;
    action
}

/// The most accepted actions before nobody owes.
fn length(state: &GameState) -> usize {
    if state.round_data.needs_action.empty() {
        return 0;
    }
    1 + nexts(state).iter().map(|(_, after)| length(after)).max().unwrap_or(0)
}

/// Every accepted action that gives a table of its own: more chips than a seat
/// has, and plus infinity, do what betting all of them does.
fn nexts(state: &GameState) -> Vec<(Action, GameState)> {
    let least = chips(state.current_round_current_player_bet());
    let most = least + chips(state.current_player_stack());
    let mut folded = state.clone();
    let mut nexts = vec![(fold(&mut folded), folded)];
    for amount in least..=most {
        let mut after = state.clone();
        nexts.extend(bet(&mut after, amount as f32).map(|action| (action, after)));
    }
    nexts
}
