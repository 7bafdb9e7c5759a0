//! Makes a table, or says why not.

use crate::arena::errors::GameStateBuilderError;
use crate::arena::game_state::GameState;
use crate::arena::hand_key::HandKey;
use crate::arena::round::Round;
use crate::arena::round_data::RoundData;
use crate::library;
use crate::places::{AMOUNTS, GIVEN, amount, given};
use crate::sys;
use crate::words::{MAX_PLAYERS, Words, seat};

/// What is given of a table; the rest has the Rust's defaults.
#[derive(Default, Clone)]
pub struct GameStateBuilder {
    stacks: Option<Vec<f32>>,
    big_blind: Option<f32>,
    small_blind: Option<f32>,
    ante: Option<f32>,
    dealer_idx: Option<usize>,
    max_raises_per_round: Option<Option<u8>>,
    round: Option<Round>,
    board: Option<Vec<u8>>,
    hands: Option<usize>,
    player_bet: Option<Vec<f32>>,
    round_data: Option<RoundData>,
    hand_key: Option<HandKey>,
}

impl GameStateBuilder {
    /// Nothing given.
    pub fn new() -> Self {
        Self::default()
    }

    /// The stacks, one for each seat. Must be given.
    pub fn stacks(mut self, stacks: impl AsRef<[f32]>) -> Self {
        self.stacks = Some(stacks.as_ref().to_vec());
        self
    }

    /// The big blind. Must be given.
    pub fn big_blind(mut self, bb: f32) -> Self {
        self.big_blind = Some(bb);
        self
    }

    /// The small blind, or half of the big one.
    pub fn small_blind(mut self, sb: f32) -> Self {
        self.small_blind = Some(sb);
        self
    }

    /// The ante, or 0.
    pub fn ante(mut self, ante: f32) -> Self {
        self.ante = Some(ante);
        self
    }

    /// The dealer, or seat 0.
    pub fn dealer_idx(mut self, idx: usize) -> Self {
        self.dealer_idx = Some(idx);
        self
    }

    /// The cap on raises, `None` for none, or 3. It is only reported.
    pub fn max_raises_per_round(mut self, max: Option<u8>) -> Self {
        self.max_raises_per_round = Some(max);
        self
    }

    /// So many seats with a stack each.
    pub fn num_players_with_stack(self, n: usize, stack: f32) -> Self {
        // One more than there may be is refused as any more are, and no list need hold them.
        self.stacks(vec![stack; n.min(MAX_PLAYERS + 1)])
    }

    /// Both blinds.
    pub fn blinds(self, big: f32, small: f32) -> Self {
        self.big_blind(big).small_blind(small)
    }

    /// The round, or Starting.
    pub fn round(mut self, round: Round) -> Self {
        self.round = Some(round);
        self
    }

    /// The board's cards, as numbers 0 to 51 or as what turns into them, or none.
    pub fn board<C: Copy + Into<u8>>(mut self, board: impl AsRef<[C]>) -> Self {
        self.board = Some(board.as_ref().iter().map(|&card| card.into()).collect());
        self
    }

    /// The hands; only their count is looked at.
    pub fn hands<H>(mut self, hands: impl AsRef<[H]>) -> Self {
        self.hands = Some(hands.as_ref().len());
        self
    }

    /// What each seat has bet in the hand, or nothing.
    pub fn player_bet(mut self, bets: impl AsRef<[f32]>) -> Self {
        self.player_bet = Some(bets.as_ref().to_vec());
        self
    }

    /// The round data, or that of a round's start.
    pub fn round_data(mut self, rd: RoundData) -> Self {
        self.round_data = Some(rd);
        self
    }

    /// Which hand it is (added), or none. Year 0 beside a code or a hand is refused by `build`, with 19.
    pub fn hand_key(mut self, key: HandKey) -> Self {
        self.hand_key = Some(key);
        self
    }

    /// The table, if every test is passed.
    pub fn build(self) -> Result<GameState, GameStateBuilderError> {
        library::check();
        let (amounts, given) = (self.amounts(), self.given());
        let stacks = self.stacks.unwrap_or_default();
        let player_bet = self.player_bet.unwrap_or_default();
        let board = self.board.unwrap_or_default();
        let mut words = self.round_data.map_or(Words::ZEROS, |data| data.words);
        let (floats, numbers) = (&mut words.floats, &mut words.numbers);
        // SAFETY: the arrays and lists are there, are this long and do not overlap.
        let refused = unsafe {
            sys::peatcloak_build(
                floats.as_mut_ptr(),
                floats.len(),
                numbers.as_mut_ptr(),
                numbers.len(),
                stacks.as_ptr(),
                stacks.len(),
                player_bet.as_ptr(),
                player_bet.len(),
                board.as_ptr(),
                board.len(),
                amounts.as_ptr(),
                amounts.len(),
                given.as_ptr(),
                given.len(),
            )
        };
        match refused {
            0 => Ok(GameState { words }),
            number => Err(GameStateBuilderError::of(number)),
        }
    }

    fn amounts(&self) -> [f32; AMOUNTS] {
        let mut amounts = [0.0; AMOUNTS];
        amounts[amount::BIG_BLIND] = self.big_blind.unwrap_or_default();
        amounts[amount::SMALL_BLIND] = self.small_blind.unwrap_or_default();
        amounts[amount::ANTE] = self.ante.unwrap_or_default();
        amounts
    }

    /// What is given, and its number.
    fn given(&self) -> [u32; GIVEN] {
        let cap = self.max_raises_per_round.flatten();
        let key = self.hand_key.unwrap_or(HandKey::NONE);
        let mut words = [0; GIVEN];
        words[given::STACKS] = self.stacks.is_some().into();
        words[given::BIG_BLIND] = self.big_blind.is_some().into();
        words[given::SMALL_BLIND] = self.small_blind.is_some().into();
        words[given::ANTE] = self.ante.is_some().into();
        words[given::DEALER] = self.dealer_idx.is_some().into();
        words[given::DEALER_IS] = seat(self.dealer_idx.unwrap_or(0));
        words[given::CAP] = self.max_raises_per_round.is_some().into();
        words[given::CAP_CAPS] = cap.is_some().into();
        words[given::CAP_IS] = cap.unwrap_or(0).into();
        words[given::ROUND] = self.round.is_some().into();
        words[given::ROUND_IS] = self.round.unwrap_or_default() as u32;
        words[given::BOARD] = self.board.is_some().into();
        words[given::HANDS] = self.hands.is_some().into();
        words[given::HANDS_ARE] = seat(self.hands.unwrap_or(0));
        words[given::PLAYER_BET] = self.player_bet.is_some().into();
        words[given::ROUND_DATA] = self.round_data.is_some().into();
        words[given::KEY] = self.hand_key.is_some().into();
        words[given::KEY_CODE] = key.code.into();
        words[given::KEY_YEAR] = key.year.into();
        words[given::KEY_HAND] = key.hand;
        words
    }
}
