//! The calls of round data alone.

use super::RoundData;
use crate::arena::errors::GameStateError;
use crate::core::PlayerBitSet;
use crate::library;
use crate::sys;
use crate::words::{Words, seat};

/// The two arrays with their lengths, as a call that writes takes them.
macro_rules! call {
    ($step:ident, $words:expr $(, $more:expr)*) => {{
        let (floats, numbers) = (&mut $words.floats, &mut $words.numbers);
        // SAFETY: the arrays are there, are this long and do not overlap.
        unsafe {
            sys::$step(floats.as_mut_ptr(), floats.len(), numbers.as_mut_ptr(), numbers.len() $(, $more)*)
        }
    }};
}

fn done(refused: u32) -> Result<(), GameStateError> {
    if refused == 0 { Ok(()) } else { Err(GameStateError::of(refused)) }
}

impl RoundData {
    /// No bets yet; refused for 0 or more than 16 seats, or a seat outside.
    pub fn new(
        num_players: usize,
        min_raise: f32,
        active: PlayerBitSet,
        to_act: usize,
    ) -> Result<Self, GameStateError> {
        library::check();
        let mut words = Words::ZEROS;
        let (players, to_act) = (seat(num_players), seat(to_act));
        done(call!(peatcloak_round_new, words, players, min_raise, active.bits(), to_act))?;
        Ok(RoundData { words })
    }

    /// These bets, with the bet and the counts that they tell; refused as `new` is.
    pub fn new_with_bets(
        min_raise: f32,
        active: PlayerBitSet,
        to_act: usize,
        player_bet: impl AsRef<[f32]>,
    ) -> Result<Self, GameStateError> {
        library::check();
        let mut words = Words::ZEROS;
        let (active, to_act) = (active.bits(), seat(to_act));
        let (bets, count) = (player_bet.as_ref().as_ptr(), player_bet.as_ref().len());
        let step =
            call!(peatcloak_round_new_with_bets, words, min_raise, active, to_act, bets, count);
        done(step)?;
        Ok(RoundData { words })
    }

    /// The turn goes to the next seat that owes.
    pub fn advance_action(&mut self) {
        done(call!(peatcloak_round_advance_action, self.words)).expect("round data is made sound");
    }

    /// The seat to act puts so much in; refused where a counter is full.
    pub fn do_bet(&mut self, extra_amount: f32, is_forced: bool) -> Result<(), GameStateError> {
        done(call!(peatcloak_round_do_bet, self.words, extra_amount, is_forced as u32))
    }

    /// How many seats owe an action.
    pub fn num_players_need_action(&self) -> usize {
        let (_, [need, ..]) = self.asked();
        need as usize
    }

    /// Whether there were forced bets only.
    pub fn is_action_unopened(&self) -> bool {
        let (_, [_, is_unopened, _]) = self.asked();
        is_unopened != 0
    }

    /// The bet of the seat to act.
    pub fn current_player_bet(&self) -> f32 {
        let ([bet], _) = self.asked();
        bet
    }

    /// In the header's order.
    fn asked(&self) -> ([f32; 1], [u32; 3]) {
        let (mut amounts, mut answers) = ([0.0; 1], [0; 3]);
        let Words { floats, numbers } = &self.words;
        // SAFETY: the arrays are there, are this long and do not overlap.
        let refused = unsafe {
            sys::peatcloak_round_queries(
                floats.as_ptr(),
                floats.len(),
                numbers.as_ptr(),
                numbers.len(),
                amounts.as_mut_ptr(),
                amounts.len(),
                answers.as_mut_ptr(),
                answers.len(),
            )
        };
        debug_assert_eq!(refused, 0, "the arrays are long enough");
        (amounts, answers)
    }
}
