//! One step on a record: asked of the Rust, or refused by document 01's
//! conditions where the Rust would panic.

use rs_poker::arena::{GameState, Round};

use crate::carry::{self, ROUNDS};
use crate::line::Line;
use crate::refusals::{self, BAD_RECORD, BAD_SEAT, COUNTER_FULL, Refusal};
use crate::sound;
use crate::table::{Table, place};
use crate::walk;

#[derive(Clone, Copy)]
pub enum Step {
    Advance,
    Complete,
    Fold,
    Bet(f32),
    Forced(f32),
    Call,
    AllIn,
    Award(usize, f32),
    Reward(usize),
    Query(usize),
}

impl Step {
    pub fn written(&self) -> Line {
        match *self {
            Step::Advance => Line::new('n'),
            Step::Complete => Line::new('x'),
            Step::Fold => Line::new('f'),
            Step::Bet(amount) => Line::new('b').float(amount),
            Step::Forced(amount) => Line::new('p').float(amount),
            Step::Call => Line::new('C'),
            Step::AllIn => Line::new('A'),
            Step::Award(seat, amount) => Line::new('w').token(seat).float(amount),
            Step::Reward(seat) => Line::new('v').token(seat),
            Step::Query(seat) => Line::new('q').token(seat),
        }
    }

    /// Takes the step on the table and gives its line.
    pub fn take(&self, table: &mut Table) -> Line {
        let line = self.written();
        if !sound::record(table) {
            return line.refused(BAD_RECORD);
        }
        match *self {
            Step::Advance => self.change(line, table, GameState::advance_round),
            Step::Complete => self.change(line, table, GameState::complete),
            Step::Fold => self.change(line, table, GameState::fold),
            Step::Bet(amount) => self.bet(line, table, amount, false),
            Step::Forced(amount) => self.bet(line, table, amount, true),
            Step::Call => self.bet(line, table, table.float(place::ROUND_BET), false),
            Step::AllIn => self.bet(line, table, f32::INFINITY, false),
            // The Rust indexes its lists, and panics from n on.
            Step::Award(seat, _) | Step::Reward(seat) if seat >= table.get(place::NUM_PLAYERS) => {
                line.refused(BAD_SEAT)
            }
            Step::Award(seat, amount) => {
                self.change(line, table, |state| state.award(seat, amount))
            }
            Step::Reward(seat) => line.answer().float(carry::game_state(table).player_reward(seat)),
            Step::Query(seat) => query(line, &carry::game_state(table), seat),
        }
    }

    fn change(&self, line: Line, table: &mut Table, step: impl Fn(&mut GameState)) -> Line {
        let mut state = carry::game_state(table);
        step(&mut state);
        self.moved(line.answer(), table, carry::table(&state))
    }

    fn bet(&self, line: Line, table: &mut Table, amount: f32, forced: bool) -> Line {
        match pay(table, amount, forced) {
            Ok((paid, after)) => self.moved(line.answer().float(paid), table, after),
            Err(number) => line.refused(number),
        }
    }

    /// The count of the walk, then what the step changed.
    fn moved(&self, line: Line, table: &mut Table, after: Table) -> Line {
        let line = line.token(self.passed(table, &after)).changes(table, &after);
        *table = after;
        line
    }

    /// How many seats the walk of a step that is taken passed to, 0 where it has none.
    fn passed(&self, before: &Table, after: &Table) -> usize {
        match self {
            Step::Advance if round(before) == Round::Complete => 0,
            Step::Advance => walk::passed(after, after.get(place::DEALER_IDX), opening(after)),
            Step::Fold | Step::Bet(_) | Step::Forced(_) | Step::Call | Step::AllIn => {
                walk::passed(after, before.get(place::TO_ACT_IDX), 1)
            }
            Step::Complete | Step::Award(..) | Step::Reward(_) | Step::Query(_) => 0,
        }
    }
}

fn round(table: &Table) -> Round {
    ROUNDS[table.get(place::ROUND)]
}

/// The walks from the dealer that open a round: at Preflop with two seats there are two.
fn opening(table: &Table) -> usize {
    let twice = round(table) == Round::Preflop && table.get(place::NUM_PLAYERS) == 2;
    if twice { 2 } else { 1 }
}

/// The line that loads a record, sound or not.
pub fn loading(table: &Table) -> Line {
    let letter = if sound::record(table) { 'T' } else { 'U' };
    Line::new(letter).new_table(table)
}

fn pay(table: &Table, amount: f32, forced: bool) -> Result<(f32, Table), Refusal> {
    let mut state = carry::game_state(table);
    let paid = bet_on(&mut state, amount, forced)?;
    Ok((paid, carry::table(&state)))
}

/// A bet on a sound record. It is rehearsed, so that the Rust never meets a full counter.
pub fn bet_on(state: &mut GameState, amount: f32, forced: bool) -> Result<f32, Refusal> {
    let mut rehearsed = state.clone();
    sound::clear_counters(&mut rehearsed.round_data);
    rehearsed.do_bet(amount, forced).map_err(refusals::of_bet)?;
    if sound::counter_full(state.round_data.clone(), rehearsed.round_data) {
        return Err(COUNTER_FULL);
    }
    state.do_bet(amount, forced).map_err(refusals::of_bet)
}

pub fn query(line: Line, state: &GameState, seat: usize) -> Line {
    let line = line.answer().flag(state.is_raise_capped());
    let line = line.token(state.num_active_players()).token(state.num_all_in_players());
    let line = line.flag(state.is_complete()).token(state.to_act_idx());
    let line = line.float(state.current_player_stack());
    let line = line.float(state.current_player_starting_stack());
    let line = line.float(state.current_round_current_player_bet());
    let line = line.float(state.current_round_bet());
    let line = line.float(state.current_round_player_bet(seat));
    let line = line.token(state.current_round_num_active_players());
    line.float(state.current_round_min_raise())
}
