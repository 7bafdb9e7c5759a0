//! A record on both sides, and steps taken on both in place.

use lists::carry;
use lists::refusals::{BAD_RECORD, BAD_SEAT};
use lists::sound;
use lists::step::Step;
use lists::table::{Table, place};
use rs_poker::arena::GameState;

use crate::boundary;
use crate::same;
use crate::tally::{Kind, Tally};
use crate::theirs::{self, Answer};

/// The Rust has no side where the record is not sound. `before` is ours before the last step.
pub struct Pair {
    pub ours: Table,
    theirs: Option<GameState>,
    pub before: Table,
}

impl Pair {
    pub fn load(table: &Table) -> Self {
        let theirs = sound::record(table).then(|| carry::game_state(table));
        Pair { ours: table.clone(), theirs, before: Table::ZEROS }
    }

    /// Whether both sides answer the same, and have the same table after it.
    pub fn is_same(&mut self, step: &Step, tally: &mut Tally) -> bool {
        let (refused, is_same) = match *step {
            Step::Query(seat) => (0, self.same_queries(seat)),
            Step::Reward(seat) => self.same_reward(seat),
            _ => {
                self.before.clone_from(&self.ours);
                self.same_step(step)
            }
        };
        tally.count(kind(step), refused);
        is_same
    }

    /// What the step is refused with, 0 where it is taken, and whether ours is the same.
    fn same_step(&mut self, step: &Step) -> (u32, bool) {
        let call = self.ours.float(place::ROUND_BET);
        let expected = match &mut self.theirs {
            None => Answer { refused: BAD_RECORD, ..Answer::default() },
            Some(state) => theirs::take(state, step, call),
        };
        let refused = ours(&mut self.ours, step, call);
        if refused != expected.refused {
            return (expected.refused, false);
        }
        if refused != 0 {
            return (refused, self.ours.words == self.before.words);
        }
        let state = self.theirs.as_ref().expect("an accepted step is on a sound record");
        let same = same::float(self.ours.float(place::PAID), expected.paid)
            && self.ours.get(place::PASSED) == expected.passed
            && same::record(&self.ours, state)
            && same::untouched(&self.before, &self.ours);
        (0, same)
    }

    /// On a record that is not sound only that is asked.
    fn same_queries(&self, seat: usize) -> bool {
        let (refused, got) = boundary::queries(&self.ours, seat);
        let [.., is_sound] = got.answers;
        let Some(state) = &self.theirs else {
            return refused == 0 && is_sound == 0;
        };
        let amounts = [
            state.current_player_stack(),
            state.current_player_starting_stack(),
            state.current_round_current_player_bet(),
            state.current_round_bet(),
            state.current_round_player_bet(seat),
            state.current_round_min_raise(),
        ];
        let answers = [
            state.is_raise_capped() as usize,
            state.num_active_players(),
            state.num_all_in_players(),
            state.is_complete() as usize,
            state.to_act_idx(),
            state.current_round_num_active_players(),
            1,
        ];
        refused == 0
            && got.amounts.iter().zip(amounts).all(|(&a, b)| same::float(a, b))
            && got.answers.iter().zip(answers).all(|(&a, b)| a as usize == b)
    }

    fn same_reward(&self, seat: usize) -> (u32, bool) {
        let (refused, reward) = boundary::player_reward(&self.ours, seat);
        match &self.theirs {
            None => (BAD_RECORD, refused == BAD_RECORD),
            Some(state) if seat >= state.num_players => (BAD_SEAT, refused == BAD_SEAT),
            Some(state) => (0, refused == 0 && same::float(reward, state.player_reward(seat))),
        }
    }
}

/// Our side of a step that changes the record.
pub fn ours(table: &mut Table, step: &Step, call: f32) -> u32 {
    match *step {
        Step::Advance => boundary::advance_round(table),
        Step::Complete => boundary::complete(table),
        Step::Fold => boundary::fold(table),
        Step::Bet(amount) => boundary::do_bet(table, amount, false),
        Step::Forced(amount) => boundary::do_bet(table, amount, true),
        Step::Call => boundary::do_bet(table, call, false),
        Step::AllIn => boundary::do_bet(table, f32::INFINITY, false),
        Step::Award(seat, amount) => boundary::award(table, seat, amount),
        Step::Reward(_) | Step::Query(_) => unreachable!("a query changes nothing"),
    }
}

fn kind(step: &Step) -> Kind {
    match step {
        Step::Advance => Kind::Advance,
        Step::Complete => Kind::Complete,
        Step::Fold => Kind::Fold,
        Step::Bet(_) => Kind::Bet,
        Step::Forced(_) => Kind::Forced,
        Step::Call => Kind::Call,
        Step::AllIn => Kind::AllIn,
        Step::Award(..) => Kind::Award,
        Step::Reward(_) => Kind::Reward,
        Step::Query(_) => Kind::Queries,
    }
}
