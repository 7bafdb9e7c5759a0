//! The Rust's side of a step, in place. Where it would panic, document 01's conditions answer and it is not asked.

use lists::refusals::{self, BAD_SEAT, Refusal};
use lists::step::{self, Step};
use rs_poker::arena::{GameState, Round, RoundData};

/// What a step answers beside the table.
#[derive(Clone, Copy, Default, Debug)]
pub struct Answer {
    pub refused: Refusal,
    pub paid: f32,
    pub passed: usize,
}

impl Answer {
    fn refused(refused: Refusal) -> Self {
        Answer { refused, ..Answer::default() }
    }
}

/// From a seat to another; a whole round where it comes back.
pub fn distance(from: usize, to: usize, n: usize) -> usize {
    if to > from { to - from } else { to + n - from }
}

/// A step that changes a sound record; the amount of the choice Call is given.
pub fn take(state: &mut GameState, step: &Step, call: f32) -> Answer {
    match *step {
        Step::Advance => advance(state),
        Step::Complete => {
            state.complete();
            Answer::default()
        }
        Step::Fold => {
            let from = state.to_act_idx();
            state.fold();
            walked(state, from, 0.0)
        }
        Step::Bet(amount) => bet(state, amount, false),
        Step::Forced(amount) => bet(state, amount, true),
        Step::Call => bet(state, call, false),
        Step::AllIn => bet(state, f32::INFINITY, false),
        // The Rust indexes its lists, and panics from n on.
        Step::Award(seat, _) if seat >= state.num_players => Answer::refused(BAD_SEAT),
        Step::Award(seat, amount) => {
            state.award(seat, amount);
            Answer::default()
        }
        Step::Reward(_) | Step::Query(_) => unreachable!("a query changes nothing"),
    }
}

fn walked(state: &GameState, from: usize, paid: f32) -> Answer {
    let passed = distance(from, state.to_act_idx(), state.num_players);
    Answer { refused: 0, paid, passed }
}

/// A full counter panics, so a bet beside one is rehearsed on a copy; no other bet is.
fn bet(state: &mut GameState, amount: f32, is_forced: bool) -> Answer {
    let from = state.to_act_idx();
    let data = &state.round_data;
    let counters = [data.total_bet_count, data.total_raise_count, data.forced_bet_count];
    let paid = if counters.contains(&u8::MAX) {
        step::bet_on(state, amount, is_forced)
    } else {
        state.do_bet(amount, is_forced).map_err(refusals::of_bet)
    };
    match paid {
        Ok(paid) => walked(state, from, paid),
        Err(number) => Answer::refused(number),
    }
}

/// With two seats at Preflop the walk is done twice, and the second goes on where the first one ended.
fn advance(state: &mut GameState) -> Answer {
    if state.round == Round::Complete {
        return Answer::default();
    }
    let dealer = state.dealer_idx;
    state.advance_round();
    if state.round != Round::Preflop || state.num_players != 2 {
        return walked(state, dealer, 0.0);
    }
    let mut once = RoundData::new(2, state.big_blind, state.player_active, dealer);
    once.advance_action();
    let first = distance(dealer, once.to_act_idx, 2);
    let second = distance(once.to_act_idx, state.to_act_idx(), 2);
    Answer { passed: first + second, ..Answer::default() }
}

#[cfg(test)]
mod tests {
    use super::distance;

    #[test]
    fn the_way_back_to_the_start_is_a_whole_round() {
        assert_eq!(distance(5, 0, 6), 1);
        assert_eq!(distance(5, 5, 6), 6);
        assert_eq!(distance(0, 4, 6), 4);
    }
}
