//! One run: a table played until nobody owes, looked at after every action.

use rs_poker::arena::GameState;

use crate::action::{Action, spare_counters};
use crate::bound;
use crate::draw::Draw;
use crate::order::{all_chips, fault};
use crate::policy::Policy;
use crate::turns::Turns;

pub struct Run {
    pub length: usize,
    pub bound: usize,
}

pub struct Violation {
    pub what: String,
    pub actions: Vec<Action>,
}

pub fn play(start: &GameState, policy: &Policy, draw: &mut Draw) -> Result<Run, Violation> {
    // The bound means something only for a table in good order.
    if let Some(what) = fault(start) {
        return Err(Violation { what: format!("at the start: {what}"), actions: Vec::new() });
    }
    let mut state = start.clone();
    let mut watch = Watch::new(start);
    let mut actions = Vec::new();
    loop {
        if let Some(what) = watch.fault(&state, actions.len()) {
            return Err(Violation { what, actions });
        }
        if state.round_data.needs_action.empty() {
            return Ok(Run { length: actions.len(), bound: watch.bound });
        }
        spare_counters(&mut state);
        actions.push((policy.act)(draw, &mut state));
    }
}

/// What the start of a run promises for all of it.
struct Watch {
    bound: usize,
    chips: usize,
    turns: Turns,
}

impl Watch {
    fn new(start: &GameState) -> Self {
        Watch { bound: bound::of(start), chips: all_chips(start), turns: Turns::default() }
    }

    fn fault(&mut self, state: &GameState, length: usize) -> Option<String> {
        if let Some(what) = fault(state) {
            return Some(what.to_string());
        }
        if all_chips(state) != self.chips {
            return Some(format!("{} chips became {}", self.chips, all_chips(state)));
        }
        if length > self.bound {
            return Some(format!("more than {} actions", self.bound));
        }
        let late = self.turns.late(state, length)?;
        Some(format!("seat {late} owed and did not have the turn in time"))
    }
}
