//! The steps.

use super::GameState;
use crate::arena::action::AgentAction;
use crate::arena::errors::GameStateError;
use crate::places::{float, number};
use crate::sys;
use crate::words::{MAX_PLAYERS, seat};

/// A step of the boundary on the table, and what it answers.
macro_rules! step {
    ($step:ident, $state:expr $(, $more:expr)*) => {{
        let (floats, numbers) = (&mut $state.words.floats, &mut $state.words.numbers);
        // SAFETY: the arrays are there, are this long and do not overlap.
        let refused = unsafe {
            sys::$step(floats.as_mut_ptr(), floats.len(), numbers.as_mut_ptr(), numbers.len() $(, $more)*)
        };
        if refused == 0 { Ok(()) } else { Err(GameStateError::of(refused)) }
    }};
}

/// On a sound table nothing is refused.
const SOUND: &str = "the table is sound";

impl GameState {
    /// Goes on to the next round; at Complete nothing changes.
    pub fn advance_round(&mut self) {
        step!(peatcloak_advance_round, self).expect(SOUND);
    }

    /// Ends the hand.
    pub fn complete(&mut self) {
        step!(peatcloak_complete, self).expect(SOUND);
    }

    /// The seat to act folds.
    pub fn fold(&mut self) {
        step!(peatcloak_fold, self).expect(SOUND);
    }

    /// The seat to act bets up to an amount; gives what it paid.
    pub fn do_bet(&mut self, amount: f32, is_forced: bool) -> Result<f32, GameStateError> {
        step!(peatcloak_do_bet, self, amount, is_forced as u32)?;
        Ok(self.words.floats[float::PAID])
    }

    /// Gives chips to a seat; the pot stays. Refused for a seat outside.
    pub fn award(&mut self, player_idx: usize, amount: f32) -> Result<(), GameStateError> {
        step!(peatcloak_award, self, seat(player_idx), amount)
    }

    /// What the seat to act chooses (added); gives what it paid, 0 for a fold.
    pub fn choose(&mut self, action: AgentAction) -> Result<f32, GameStateError> {
        match action {
            AgentAction::Fold => self.fold(),
            AgentAction::Call => return self.do_bet(self.current_round_bet(), false),
            AgentAction::Bet(amount) => return self.do_bet(amount, false),
            AgentAction::AllIn => return self.do_bet(f32::INFINITY, false),
        }
        Ok(0.0)
    }

    /// Pays the pot out by a rank for each seat, higher is better (added); gives each seat's reward in chips.
    ///
    /// Odd chips go one each to a layer's winners in order from the first seat after the dealer. Ranks and rewards
    /// from `num_players` on mean nothing.
    pub fn settle(
        &mut self,
        ranks: &[u16; MAX_PLAYERS],
    ) -> Result<[i32; MAX_PLAYERS], GameStateError> {
        let mut rewards = [0; MAX_PLAYERS];
        let (given, taken) = (ranks.as_ptr(), rewards.as_mut_ptr());
        step!(peatcloak_settle, self, given, MAX_PLAYERS, taken, MAX_PLAYERS)?;
        Ok(rewards)
    }

    /// Seats that the walk of the last step passed to (added).
    pub fn passed(&self) -> usize {
        self.words.number(number::PASSED)
    }
}
