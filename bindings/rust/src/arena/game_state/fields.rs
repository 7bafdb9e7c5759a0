//! The Rust's fields, as calls: what stands in the two arrays.

use super::{GameState, HandKey, Round, RoundData};
use crate::arena::errors::GameStateError;
use crate::arena::round::ROUNDS;
use crate::core::PlayerBitSet;
use crate::places::{float, number};

/// The most cards of a board.
const MAX_BOARD: usize = 5;

impl GameState {
    /// How many seats there are.
    pub fn num_players(&self) -> usize {
        self.words.number(number::NUM_PLAYERS)
    }

    /// Who is still in and has chips.
    pub fn player_active(&self) -> PlayerBitSet {
        PlayerBitSet::from_bits(self.words.seats(number::PLAYER_ACTIVE))
    }

    /// Who is all in.
    pub fn player_all_in(&self) -> PlayerBitSet {
        PlayerBitSet::from_bits(self.words.seats(number::PLAYER_ALL_IN))
    }

    /// What all pots hold.
    pub fn total_pot(&self) -> f32 {
        self.words.floats[float::TOTAL_POT]
    }

    /// What each seat has left.
    pub fn stacks(&self) -> &[f32] {
        self.words.list(float::STACKS, self.num_players())
    }

    /// What each seat began with.
    pub fn starting_stacks(&self) -> &[f32] {
        self.words.list(float::STARTING_STACKS, self.num_players())
    }

    /// What each seat has bet in the hand.
    pub fn player_bet(&self) -> &[f32] {
        self.words.list(float::HAND_BETS, self.num_players())
    }

    /// What each seat was awarded.
    pub fn player_winnings(&self) -> &[f32] {
        self.words.list(float::WINNINGS, self.num_players())
    }

    /// The big blind.
    pub fn big_blind(&self) -> f32 {
        self.words.floats[float::BIG_BLIND]
    }

    /// The small blind.
    pub fn small_blind(&self) -> f32 {
        self.words.floats[float::SMALL_BLIND]
    }

    /// The ante.
    pub fn ante(&self) -> f32 {
        self.words.floats[float::ANTE]
    }

    /// The dealer.
    pub fn dealer_idx(&self) -> usize {
        self.words.number(number::DEALER_IDX)
    }

    /// The round.
    pub fn round(&self) -> Round {
        ROUNDS[self.words.number(number::ROUND)]
    }

    /// The round before the hand was ended.
    pub fn round_before(&self) -> Round {
        ROUNDS[self.words.number(number::ROUND_BEFORE)]
    }

    /// A copy of the round's data.
    pub fn round_data(&self) -> RoundData {
        RoundData::at(&self.words)
    }

    /// The board's cards, as numbers.
    pub fn board(&self) -> Vec<u8> {
        let cards = &self.words.numbers[number::BOARD..number::BOARD + MAX_BOARD];
        cards[..self.board_len()].iter().map(|&card| card as u8).collect()
    }

    /// Whether the big blind was posted.
    pub fn bb_posted(&self) -> bool {
        self.words.numbers[number::BB_POSTED] != 0
    }

    /// Whether the small blind was posted.
    pub fn sb_posted(&self) -> bool {
        self.words.numbers[number::SB_POSTED] != 0
    }

    /// The cap on raises.
    pub fn max_raises_per_round(&self) -> Option<u8> {
        let is_set = self.words.numbers[number::HAS_CAP] != 0;
        is_set.then_some(self.words.numbers[number::CAP] as u8)
    }

    /// Which hand it is (added), if it was built with a key. Every step leaves it as it is.
    pub fn hand_key(&self) -> Option<HandKey> {
        let [code, year] =
            [number::KEY_CODE, number::KEY_YEAR].map(|at| self.words.numbers[at] as u16);
        let hand = self.words.numbers[number::KEY_HAND];
        (year != 0).then_some(HandKey { code, year, hand })
    }

    /// Marks the big blind as posted, or not.
    pub fn set_bb_posted(&mut self, is_posted: bool) {
        self.words.numbers[number::BB_POSTED] = is_posted.into();
    }

    /// Marks the small blind as posted, or not.
    pub fn set_sb_posted(&mut self, is_posted: bool) {
        self.words.numbers[number::SB_POSTED] = is_posted.into();
    }

    /// Deals a card to the board; refused with 18 above 51, and with 19 where five are there.
    pub fn push_board(&mut self, card: impl Into<u8>) -> Result<(), GameStateError> {
        let (card, len) = (card.into(), self.board_len());
        if len == MAX_BOARD {
            return Err(GameStateError::BadRecord);
        }
        if card > 51 {
            return Err(GameStateError::BadCard);
        }
        self.words.numbers[number::BOARD + len] = card.into();
        self.words.numbers[number::BOARD_LENGTH] += 1;
        Ok(())
    }

    fn board_len(&self) -> usize {
        self.words.number(number::BOARD_LENGTH)
    }
}
