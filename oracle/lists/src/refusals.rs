//! The refusal numbers of documents 01 and 02, and the Rust's errors under them.

use rs_poker::arena::GameStateBuilderError;
use rs_poker::arena::errors::GameStateError;

pub type Refusal = u32;

pub const INVALID_PLAYER_COUNT: Refusal = 3;
pub const BAD_CARD: Refusal = 18;
pub const BAD_RECORD: Refusal = 19;
pub const BAD_SEAT: Refusal = 20;
pub const COUNTER_FULL: Refusal = 21;
pub const NOBODY_LEFT: Refusal = 22;
pub const NOT_WHOLE_CHIPS: Refusal = 23;
pub const ALREADY_PAID: Refusal = 24;
pub const BAD_LINE: Refusal = 25;
pub const SCRIPT_TOO_LONG: Refusal = 26;
pub const BAD_JOURNAL: Refusal = 27;
pub const NOT_KEPT: Refusal = 28;

pub fn of_build(error: GameStateBuilderError) -> Refusal {
    match error {
        GameStateBuilderError::MissingStacks => 1,
        GameStateBuilderError::MissingBigBlind => 2,
        GameStateBuilderError::InvalidPlayerCount { .. } => INVALID_PLAYER_COUNT,
        GameStateBuilderError::InvalidDealerIndex { .. } => 4,
        GameStateBuilderError::InvalidBigBlind(_) => 5,
        GameStateBuilderError::InvalidSmallBlind(_) => 6,
        GameStateBuilderError::InvalidAnte(_) => 7,
        GameStateBuilderError::InvalidStack { .. } => 8,
        GameStateBuilderError::InsufficientActivePlayers => 9,
        GameStateBuilderError::HandsLengthMismatch { .. } => 10,
        GameStateBuilderError::PlayerBetLengthMismatch { .. } => 11,
        GameStateBuilderError::InvalidBoardSize(_) => 12,
        GameStateBuilderError::DuplicateCard(_) => 13,
    }
}

pub fn of_bet(error: GameStateError) -> Refusal {
    match error {
        GameStateError::BetInvalidSize => 14,
        GameStateError::BetSizeDoesntCallSelf => 15,
        GameStateError::BetSizeDoesntCall => 16,
        GameStateError::RaiseSizeTooSmall => 17,
        GameStateError::CantAdvanceRound => unreachable!("no bet of the texts gives it"),
    }
}
