//! Ways to play: each takes the turn of the seat to act with one accepted action.

use rs_poker::arena::GameState;

use crate::action::{Action, bet, fold};
use crate::draw::Draw;
use crate::longest;
use crate::order::chips;

pub struct Policy {
    pub name: &'static str,
    pub act: fn(&mut Draw, &mut GameState) -> Action,
    /// Whether a table is played this way.
    pub suits: fn(&GameState) -> bool,
}

const fn on_all(name: &'static str, act: fn(&mut Draw, &mut GameState) -> Action) -> Policy {
    Policy { name, act, suits: |_| true }
}

pub const POLICIES: [Policy; 8] = [
    on_all("any action", any),
    on_all("smallest raise", |_, state| smallest_raise(state)),
    on_all("last one raises", |_, state| last_raises(state)),
    on_all("call", |_, state| call(state)),
    on_all("fold", |_, state| fold(state)),
    on_all("all in", |_, state| all_in(state)),
    on_all("mixed", mixed),
    Policy {
        name: "longest there is",
        act: |_, state| longest::act(state),
        suits: longest::is_small,
    },
];

/// Accepted in good order: it meets the bet or takes the whole stack.
fn call(state: &mut GameState) -> Action {
    let amount = state.current_round_bet();
    bet(state, amount).expect("a call is accepted")
}

fn all_in(state: &mut GameState) -> Action {
    bet(state, f32::INFINITY).expect("all in is accepted")
}

/// The most that the seat to act can have in the round.
fn reach(state: &GameState) -> usize {
    chips(state.current_round_current_player_bet() + state.current_player_stack())
}

/// Asks for every whole amount above the bet in turn; calls where none is a raise.
fn smallest_raise(state: &mut GameState) -> Action {
    let above = chips(state.current_round_bet()) + 1..=reach(state);
    let raise = above.into_iter().find_map(|amount| bet(state, amount as f32));
    raise.unwrap_or_else(|| call(state))
}

/// Everyone calls but the last who owes: so each raise is met by the most actions.
fn last_raises(state: &mut GameState) -> Action {
    if state.round_data.num_players_need_action() == 1 {
        smallest_raise(state)
    } else {
        call(state)
    }
}

/// Draws folds and whole amounts, good and bad, until one is accepted.
fn any(draw: &mut Draw, state: &mut GameState) -> Action {
    loop {
        if let Some(action) = attempt(draw, state) {
            return action;
        }
    }
}

/// Amounts near the bet come often, for large ones soon end a run.
fn attempt(draw: &mut Draw, state: &mut GameState) -> Option<Action> {
    let current = chips(state.current_round_bet());
    let amount = match draw.below(24) {
        0..=1 => return Some(fold(state)),
        2 => return Some(all_in(state)),
        // From about 8,389 on the Rust's tolerance is more than a chip.
        3 => draw.pick(&[8_001, 8_390, 20_000, 1 << 24, 1 << 40]),
        4..=8 => draw.within(0, reach(state) + 2),
        _ => draw.within(current.saturating_sub(1), current + 3),
    };
    bet(state, amount as f32)
}

/// One of the other ways for each action, raises more often.
fn mixed(draw: &mut Draw, state: &mut GameState) -> Action {
    match draw.below(20) {
        0..=8 => last_raises(state),
        9..=13 => smallest_raise(state),
        14..=17 => call(state),
        18 => any(draw, state),
        _ => fold(state),
    }
}
