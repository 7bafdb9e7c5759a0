//! What is asked of a table.

use super::GameState;
use crate::arena::errors::GameStateError;
use crate::places::number;
use crate::sys;
use crate::words::{Words, seat};

/// The boundary's answers to all queries at once. Numbers and flags are words.
struct Answers {
    stack: f32,
    starting_stack: f32,
    own_bet: f32,
    bet: f32,
    bet_of_seat: f32,
    min_raise: f32,
    is_raise_capped: u32,
    active: u32,
    all_in: u32,
    is_complete: u32,
    owing: u32,
    is_sound: u32,
}

impl GameState {
    fn asked(&self, player_idx: usize) -> Answers {
        let (mut amounts, mut answers) = ([0.0; 6], [0; 7]);
        let Words { floats, numbers } = &self.words;
        // SAFETY: the arrays are there, are this long and do not overlap.
        unsafe {
            sys::peatcloak_queries(
                floats.as_ptr(),
                floats.len(),
                numbers.as_ptr(),
                numbers.len(),
                seat(player_idx),
                amounts.as_mut_ptr(),
                amounts.len(),
                answers.as_mut_ptr(),
                answers.len(),
            );
        }
        // In the header's order.
        let [stack, starting_stack, own_bet, bet, bet_of_seat, min_raise] = amounts;
        let [is_raise_capped, active, all_in, is_complete, _, owing, is_sound] = answers;
        Answers {
            stack,
            starting_stack,
            own_bet,
            bet,
            bet_of_seat,
            min_raise,
            is_raise_capped,
            active,
            all_in,
            is_complete,
            owing,
            is_sound,
        }
    }

    /// Whether the cap on raises is reached.
    pub fn is_raise_capped(&self) -> bool {
        self.asked(0).is_raise_capped != 0
    }

    /// How many seats are active.
    pub fn num_active_players(&self) -> usize {
        self.asked(0).active as usize
    }

    /// How many seats are all in.
    pub fn num_all_in_players(&self) -> usize {
        self.asked(0).all_in as usize
    }

    /// Whether one seat is left, or the hand was ended.
    pub fn is_complete(&self) -> bool {
        self.asked(0).is_complete != 0
    }

    /// The seat to act.
    pub fn to_act_idx(&self) -> usize {
        self.words.number(number::TO_ACT_IDX)
    }

    /// The stack of the seat to act.
    pub fn current_player_stack(&self) -> f32 {
        self.asked(0).stack
    }

    /// What the seat to act began with.
    pub fn current_player_starting_stack(&self) -> f32 {
        self.asked(0).starting_stack
    }

    /// The round bet of the seat to act.
    pub fn current_round_current_player_bet(&self) -> f32 {
        self.asked(0).own_bet
    }

    /// The bet to be called.
    pub fn current_round_bet(&self) -> f32 {
        self.asked(0).bet
    }

    /// The round bet of a seat, 0 for one outside.
    pub fn current_round_player_bet(&self, idx: usize) -> f32 {
        self.asked(idx).bet_of_seat
    }

    /// How many seats owe an action.
    pub fn current_round_num_active_players(&self) -> usize {
        self.asked(0).owing as usize
    }

    /// The smallest raise.
    pub fn current_round_min_raise(&self) -> f32 {
        self.asked(0).min_raise
    }

    /// A seat's stack less what it began with; refused for a seat outside.
    pub fn player_reward(&self, player_idx: usize) -> Result<f32, GameStateError> {
        let mut reward = [0.0];
        let Words { floats, numbers } = &self.words;
        // SAFETY: the arrays are there, are this long and do not overlap.
        let refused = unsafe {
            sys::peatcloak_player_reward(
                floats.as_ptr(),
                floats.len(),
                numbers.as_ptr(),
                numbers.len(),
                seat(player_idx),
                reward.as_mut_ptr(),
                reward.len(),
            )
        };
        if refused == 0 { Ok(reward[0]) } else { Err(GameStateError::of(refused)) }
    }

    pub(super) fn is_sound(&self) -> bool {
        self.asked(0).is_sound != 0
    }
}
