//! Any two arrays at the boundary, sound or not. A refused call must leave them as they are, bit for bit.
#![allow(dead_code, reason = "no test uses all of it")]

use lists::step::Step;
use peatcloak::arena::GameState;
use peatcloak::places::{AMOUNTS, FLOATS, GIVEN, NUMBERS, amount, float, given, number};
use peatcloak::sys;

#[derive(Clone)]
pub struct Words {
    pub floats: [f32; FLOATS],
    pub numbers: [u32; NUMBERS],
}

/// A call that writes, and what it answers.
macro_rules! call {
    ($step:path, $words:expr $(, $more:expr)*) => {{
        let before = $words.bits();
        let Words { floats, numbers } = &mut *$words;
        // SAFETY: the arrays are there, are this long and do not overlap.
        let refused = unsafe {
            $step(floats.as_mut_ptr(), floats.len(), numbers.as_mut_ptr(), numbers.len() $(, $more)*)
        };
        assert!(refused == 0 || $words.bits() == before, "a refused call has written");
        refused
    }};
}

impl Words {
    pub const ZEROS: Words = Words { floats: [0.0; FLOATS], numbers: [0; NUMBERS] };

    pub fn of(state: &GameState) -> Self {
        let (&floats, &numbers) = state.words();
        Words { floats, numbers }
    }

    /// Code, year, hand.
    pub fn key(&self) -> [u32; 3] {
        [number::KEY_CODE, number::KEY_YEAR, number::KEY_HAND].map(|at| self.numbers[at])
    }

    /// All that a table has beside its key.
    pub fn without_key(&self) -> ([u32; FLOATS], [u32; NUMBERS]) {
        let (floats, mut numbers) = self.bits();
        for at in [number::KEY_CODE, number::KEY_YEAR, number::KEY_HAND] {
            numbers[at] = 0;
        }
        (floats, numbers)
    }

    pub fn bits(&self) -> ([u32; FLOATS], [u32; NUMBERS]) {
        (self.floats.map(f32::to_bits), self.numbers)
    }

    pub fn do_bet(&mut self, amount: f32, is_forced: bool) -> u32 {
        call!(sys::peatcloak_do_bet, self, amount, is_forced.into())
    }

    /// A step of the oracle's, and what it is refused with.
    pub fn take(&mut self, step: &Step) -> u32 {
        match *step {
            Step::Advance => self.advance_round(),
            Step::Complete => self.complete(),
            Step::Fold => self.fold(),
            Step::Bet(amount) => self.do_bet(amount, false),
            Step::Forced(amount) => self.do_bet(amount, true),
            Step::Call => self.do_bet(self.floats[float::ROUND_BET], false),
            Step::AllIn => self.do_bet(f32::INFINITY, false),
            Step::Award(seat, amount) => self.award(seat as u32, amount),
            Step::Reward(seat) => self.player_reward(seat as u32).0,
            Step::Query(seat) => self.queries(seat as u32).0,
        }
    }

    pub fn fold(&mut self) -> u32 {
        call!(sys::peatcloak_fold, self)
    }

    pub fn advance_round(&mut self) -> u32 {
        call!(sys::peatcloak_advance_round, self)
    }

    pub fn complete(&mut self) -> u32 {
        call!(sys::peatcloak_complete, self)
    }

    pub fn award(&mut self, seat: u32, amount: f32) -> u32 {
        call!(sys::peatcloak_award, self, seat, amount)
    }

    pub fn settle(&mut self) -> u32 {
        self.rewards().0
    }

    /// The refusal of a settlement with equal ranks, and the rewards.
    pub fn rewards(&mut self) -> (u32, [i32; 16]) {
        let (ranks, mut rewards) = ([0; 16], [7; 16]);
        let refused =
            call!(sys::peatcloak_settle, self, ranks.as_ptr(), 16, rewards.as_mut_ptr(), 16);
        assert!(refused == 0 || rewards == [7; 16], "a refused call has written");
        (refused, rewards)
    }

    #[cfg(feature = "parts")]
    pub fn run_bets(&mut self, amounts: &[f32]) -> u32 {
        call!(peatcloak::parts::peatcloak_run_bets, self, amounts.as_ptr(), amounts.len())
    }

    /// The refusal and the reward, 0 where it is refused.
    pub fn player_reward(&self, seat: u32) -> (u32, f32) {
        let mut reward = 7.5;
        let Words { floats, numbers } = self;
        // SAFETY: the arrays are there, are this long and do not overlap.
        let refused = unsafe {
            sys::peatcloak_player_reward(
                floats.as_ptr(),
                floats.len(),
                numbers.as_ptr(),
                numbers.len(),
                seat,
                &raw mut reward,
                1,
            )
        };
        assert!(refused == 0 || reward == 7.5, "a refused call has written");
        (refused, if refused == 0 { reward } else { 0.0 })
    }

    /// The refusal, the six amounts and the seven answers.
    pub fn queries(&self, seat: u32) -> (u32, [f32; 6], [u32; 7]) {
        let (mut amounts, mut answers) = ([0.0; 6], [0; 7]);
        let Words { floats, numbers } = self;
        // SAFETY: the arrays are there, are this long and do not overlap.
        let refused = unsafe {
            sys::peatcloak_queries(
                floats.as_ptr(),
                floats.len(),
                numbers.as_ptr(),
                numbers.len(),
                seat,
                amounts.as_mut_ptr(),
                amounts.len(),
                answers.as_mut_ptr(),
                answers.len(),
            )
        };
        (refused, amounts, answers)
    }

    pub fn current_round_player_bet(&self, seat: u32) -> f32 {
        let (_, [.., bet, _], _) = self.queries(seat);
        bet
    }

    /// A build with stacks, a big blind and the round data that stands here.
    pub fn build_with_its_round_data(&mut self, stacks: &[f32], big_blind: f32) -> u32 {
        self.build(stacks, big_blind, |given| given[given::ROUND_DATA] = 1)
    }

    /// A build with stacks, a big blind and what else is told.
    pub fn build(
        &mut self,
        stacks: &[f32],
        big_blind: f32,
        tell: impl Fn(&mut [u32; GIVEN]),
    ) -> u32 {
        let (mut amounts, mut given) = ([0.0; AMOUNTS], [0; GIVEN]);
        amounts[amount::BIG_BLIND] = big_blind;
        for place in [given::STACKS, given::BIG_BLIND] {
            given[place] = 1;
        }
        tell(&mut given);
        self.build_told(stacks, &amounts, &given)
    }

    /// A build with lists of amounts and of what is given of any length.
    pub fn build_told(&mut self, stacks: &[f32], amounts: &[f32], given: &[u32]) -> u32 {
        let nothing = [0];
        call!(
            sys::peatcloak_build,
            self,
            stacks.as_ptr(),
            stacks.len(),
            stacks.as_ptr(),
            0,
            nothing.as_ptr(),
            0,
            amounts.as_ptr(),
            amounts.len(),
            given.as_ptr(),
            given.len()
        )
    }

    pub fn round_new(mut self, n: u32, min_raise: f32, active: u16, to_act: u32) -> u32 {
        call!(sys::peatcloak_round_new, &mut self, n, min_raise, active, to_act)
    }

    pub fn round_new_with_bets(
        mut self,
        min_raise: f32,
        active: u16,
        to_act: u32,
        bets: &[f32],
    ) -> u32 {
        let (first, count) = (bets.as_ptr(), bets.len());
        call!(
            sys::peatcloak_round_new_with_bets,
            &mut self,
            min_raise,
            active,
            to_act,
            first,
            count
        )
    }

    pub fn round_do_bet(&mut self, extra: f32, is_forced: bool) -> u32 {
        call!(sys::peatcloak_round_do_bet, self, extra, is_forced.into())
    }

    /// What `advance_action`, `do_bet` of 1 and `current_player_bet` of the round data here are refused with.
    pub fn refused_round(&self) -> [u32; 3] {
        let (mut walk, mut bet) = (self.clone(), self.clone());
        let (_, _, [.., bet_refused]) = self.round_queries();
        [
            call!(sys::peatcloak_round_advance_action, &mut walk),
            bet.round_do_bet(1.0, false),
            bet_refused,
        ]
    }

    /// The refusal, the bet and the three answers.
    pub fn round_queries(&self) -> (u32, f32, [u32; 3]) {
        let (mut bet, mut answers) = (0.0, [0; 3]);
        let Words { floats, numbers } = self;
        // SAFETY: the arrays are there, are this long and do not overlap.
        let refused = unsafe {
            sys::peatcloak_round_queries(
                floats.as_ptr(),
                floats.len(),
                numbers.as_ptr(),
                numbers.len(),
                &raw mut bet,
                1,
                answers.as_mut_ptr(),
                answers.len(),
            )
        };
        (refused, bet, answers)
    }
}
