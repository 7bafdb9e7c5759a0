//! The bets of one round.

mod calls;

use crate::core::PlayerBitSet;
use crate::places::{float, number};
use crate::words::{MAX_PLAYERS, Words};

/// Round data alone. It stands at the round's places of two arrays, as it crosses the boundary.
#[derive(Clone, Debug, PartialEq)]
pub struct RoundData {
    pub(crate) words: Words,
}

impl RoundData {
    /// What stands at the round's places of a table, and zeros elsewhere.
    pub(crate) fn at(table: &Words) -> Self {
        let mut words = Words::ZEROS;
        let round = number::STARTING_PLAYER_ACTIVE..=number::FORCED_BET_COUNT;
        words.numbers[round.clone()].copy_from_slice(&table.numbers[round]);
        for place in [float::ROUND_BET, float::MIN_RAISE] {
            words.floats[place] = table.floats[place];
        }
        let bets = float::ROUND_BETS..float::ROUND_BETS + MAX_PLAYERS;
        words.floats[bets.clone()].copy_from_slice(&table.floats[bets]);
        RoundData { words }
    }

    /// Who was active at its start.
    pub fn starting_player_active(&self) -> PlayerBitSet {
        PlayerBitSet::from_bits(self.words.seats(number::STARTING_PLAYER_ACTIVE))
    }

    /// Who owes an action.
    pub fn needs_action(&self) -> PlayerBitSet {
        PlayerBitSet::from_bits(self.words.seats(number::NEEDS_ACTION))
    }

    /// The smallest raise.
    pub fn min_raise(&self) -> f32 {
        self.words.floats[float::MIN_RAISE]
    }

    /// What is to be called.
    pub fn bet(&self) -> f32 {
        self.words.floats[float::ROUND_BET]
    }

    /// What each seat has put in.
    pub fn player_bet(&self) -> &[f32] {
        self.words.list(float::ROUND_BETS, self.words.number(number::ROUND_LENGTH))
    }

    /// How often anyone put chips in.
    pub fn total_bet_count(&self) -> u8 {
        self.words.numbers[number::TOTAL_BET_COUNT] as u8
    }

    /// How often the bet was raised, but for forced bets.
    pub fn total_raise_count(&self) -> u8 {
        self.words.numbers[number::TOTAL_RAISE_COUNT] as u8
    }

    /// How many bets were forced.
    pub fn forced_bet_count(&self) -> u8 {
        self.words.numbers[number::FORCED_BET_COUNT] as u8
    }

    /// The seat to act.
    pub fn to_act_idx(&self) -> usize {
        self.words.number(number::TO_ACT_IDX)
    }
}
