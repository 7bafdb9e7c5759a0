//! Where each part of a table stands in the boundary's lists. Written by .ci/layout from
//! crates/layout/src/places.rt.

#![allow(missing_docs, reason = "a place is named after what stands there")]

/// The library's version: 20300 is 2.3.0. The layout's goes up when a place moves or is added.
pub const VERSION: u32 = 20300;
pub const LAYOUT: u32 = 2;

/// How many places each list has.
pub const NUMBERS: usize = 32;
pub const FLOATS: usize = 88;
pub const GIVEN: usize = 24;
pub const AMOUNTS: usize = 3;

/// Places of the numbers. A set of seats is the number of its bits: seat 0 is 1, seat 1 is 2, seat
/// 2 is 4.
pub mod number {
    pub const NUM_PLAYERS: usize = 0;
    pub const DEALER_IDX: usize = 1;
    /// 0 Starting, 1 Ante, 2 DealPreflop, 3 Preflop, .. 10 Showdown, 11 Complete
    pub const ROUND: usize = 2;
    pub const ROUND_BEFORE: usize = 3;
    pub const PLAYER_ACTIVE: usize = 4;
    pub const PLAYER_ALL_IN: usize = 5;
    pub const STARTING_PLAYER_ACTIVE: usize = 6;
    pub const NEEDS_ACTION: usize = 7;
    pub const TO_ACT_IDX: usize = 8;
    /// Of the round's bets
    pub const ROUND_LENGTH: usize = 9;
    pub const TOTAL_BET_COUNT: usize = 10;
    pub const TOTAL_RAISE_COUNT: usize = 11;
    pub const FORCED_BET_COUNT: usize = 12;
    pub const BB_POSTED: usize = 13;
    pub const SB_POSTED: usize = 14;
    /// Whether there is a cap on raises
    pub const HAS_CAP: usize = 15;
    pub const CAP: usize = 16;
    pub const BOARD_LENGTH: usize = 17;
    /// Five places
    pub const BOARD: usize = 18;
    /// Answer: seats that the walk of the last accepted step passed to
    pub const PASSED: usize = 23;
    /// From here on stands what the Rust's record lacks: the key of the hand, zeros where it has
    /// none.
    pub const ADDED: usize = 24;
    /// Of the table, below 65536
    pub const KEY_CODE: usize = 24;
    /// Below 65536; 0 means no key
    pub const KEY_YEAR: usize = 25;
    pub const KEY_HAND: usize = 26;
    /// From here on no call reads or writes anything. A host keeps 0 there, for later versions.
    pub const FREE: usize = 27;
}

/// Places of the floats. A list has 16 of them, one for each seat.
pub mod float {
    pub const TOTAL_POT: usize = 0;
    pub const BIG_BLIND: usize = 1;
    pub const SMALL_BLIND: usize = 2;
    pub const ANTE: usize = 3;
    pub const ROUND_BET: usize = 4;
    pub const MIN_RAISE: usize = 5;
    /// Answer: what the last accepted step paid
    pub const PAID: usize = 6;
    pub const STACKS: usize = 8;
    pub const STARTING_STACKS: usize = 24;
    pub const HAND_BETS: usize = 40;
    pub const WINNINGS: usize = 56;
    pub const ROUND_BETS: usize = 72;
}

/// Answers of a run of bets, where a step's answers stand: the payments added one after another,
/// and how many bets were taken.
pub mod run {
    /// Of the floats
    pub const PAID: usize = 6;
    /// Of the numbers
    pub const TAKEN: usize = 23;
}

/// Places of what a build is told: whether each is given, and its number.
pub mod given {
    /// 0 no, 1 yes, as wherever something is given
    pub const STACKS: usize = 0;
    pub const BIG_BLIND: usize = 1;
    pub const SMALL_BLIND: usize = 2;
    pub const ANTE: usize = 3;
    pub const DEALER: usize = 4;
    pub const DEALER_IS: usize = 5;
    pub const CAP: usize = 6;
    /// 0: the cap that is given is none
    pub const CAP_CAPS: usize = 7;
    /// Below 256
    pub const CAP_IS: usize = 8;
    pub const ROUND: usize = 9;
    /// 0 to 11
    pub const ROUND_IS: usize = 10;
    pub const BOARD: usize = 11;
    pub const HANDS: usize = 12;
    pub const HANDS_ARE: usize = 13;
    pub const PLAYER_BET: usize = 14;
    /// What stands at the round's places of floats and numbers before the call
    pub const ROUND_DATA: usize = 15;
    /// 0: the table has no key
    pub const KEY: usize = 16;
    /// Below 65536
    pub const KEY_CODE: usize = 17;
    /// Below 65536
    pub const KEY_YEAR: usize = 18;
    pub const KEY_HAND: usize = 19;
    /// From here on nothing is read. A host keeps 0 there, for later versions.
    pub const FREE: usize = 20;
}

/// Places of its amounts.
pub mod amount {
    pub const BIG_BLIND: usize = 0;
    pub const SMALL_BLIND: usize = 1;
    pub const ANTE: usize = 2;
}
