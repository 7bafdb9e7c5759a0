//! The claim about turns: a seat that owes has the turn after at most as many
//! accepted actions as it sits places on.

use rs_poker::arena::GameState;
use rs_poker::arena::game_state::MAX_PLAYERS;

/// For each seat that owed since it last had the turn, the number of actions
/// after which it must have it. A seat that stops owing stays due, so that
/// losing the turn is seen too.
#[derive(Default)]
pub struct Turns {
    due: [Option<usize>; MAX_PLAYERS],
}

impl Turns {
    /// Looks at the table after `actions` actions; tells a seat that was due by
    /// now, or, where nobody owes any more, one that will never have its turn.
    pub fn late(&mut self, state: &GameState, actions: usize) -> Option<usize> {
        let owing = state.round_data.needs_action;
        for seat in owing.ones() {
            let by = actions + places_on(state, seat);
            self.due[seat] = Some(self.due[seat].map_or(by, |due| due.min(by)));
        }
        if !owing.empty() {
            self.due[state.to_act_idx()] = None;
        }
        let is_late = |due: &Option<usize>| due.is_some_and(|by| by <= actions || owing.empty());
        self.due.iter().position(is_late)
    }
}

/// How far a seat sits from the seat to act, clockwise.
fn places_on(state: &GameState, seat: usize) -> usize {
    let n = state.num_players;
    (seat + n - state.to_act_idx()) % n
}
