//! Carries tables to the Rust's types and back. Only sound tables are carried to
//! the Rust, so every length here fits.

use std::hash::{Hash, Hasher};

use rs_poker::arena::{GameState, PlayerVec, Round, RoundData};
use rs_poker::core::{Card, Hand, PlayerBitSet};

use crate::table::{MAX_BOARD, MAX_SEATS, Table, place};

pub const ROUNDS: [Round; 12] = [
    Round::Starting,
    Round::Ante,
    Round::DealPreflop,
    Round::Preflop,
    Round::DealFlop,
    Round::Flop,
    Round::DealTurn,
    Round::Turn,
    Round::DealRiver,
    Round::River,
    Round::Showdown,
    Round::Complete,
];

/// The set's bits are private to the Rust, so seats go in one by one.
pub fn set_of(bits: u16) -> PlayerBitSet {
    let mut set = PlayerBitSet::default();
    for seat in 0..MAX_SEATS {
        if bits >> seat & 1 == 1 {
            set.enable(seat);
        }
    }
    set
}

/// They are shown only to a hasher, which keeps them.
pub fn bits_of(set: PlayerBitSet) -> u16 {
    let mut kept = Kept(0);
    set.hash(&mut kept);
    kept.0
}

struct Kept(u16);

impl Hasher for Kept {
    fn write(&mut self, _: &[u8]) {
        unreachable!("a set is hashed as one u16");
    }

    fn write_u16(&mut self, bits: u16) {
        self.0 = bits;
    }

    fn finish(&self) -> u64 {
        self.0.into()
    }
}

pub fn round_data(table: &Table) -> RoundData {
    let length = table.get(place::ROUND_LENGTH);
    RoundData {
        starting_player_active: set_of(table.seats(place::STARTING_PLAYER_ACTIVE)),
        needs_action: set_of(table.seats(place::NEEDS_ACTION)),
        min_raise: table.float(place::MIN_RAISE),
        bet: table.float(place::ROUND_BET),
        player_bet: table.floats(place::ROUND_BETS, length).collect(),
        total_bet_count: table.get(place::TOTAL_BET_COUNT) as u8,
        total_raise_count: table.get(place::TOTAL_RAISE_COUNT) as u8,
        forced_bet_count: table.get(place::FORCED_BET_COUNT) as u8,
        to_act_idx: table.get(place::TO_ACT_IDX),
    }
}

/// Puts round data of at most 16 bets into a table. The places of its list are
/// all written, so none keeps an older value.
pub fn put_round_data(table: &mut Table, data: &RoundData) {
    table.set(place::STARTING_PLAYER_ACTIVE, bits_of(data.starting_player_active) as usize);
    table.set(place::NEEDS_ACTION, bits_of(data.needs_action) as usize);
    table.set(place::TO_ACT_IDX, data.to_act_idx);
    table.set(place::ROUND_LENGTH, data.player_bet.len());
    table.set(place::TOTAL_BET_COUNT, data.total_bet_count as usize);
    table.set(place::TOTAL_RAISE_COUNT, data.total_raise_count as usize);
    table.set(place::FORCED_BET_COUNT, data.forced_bet_count as usize);
    table.set_float(place::ROUND_BET, data.bet);
    table.set_float(place::MIN_RAISE, data.min_raise);
    table.set_floats(place::ROUND_BETS, &[0.0; MAX_SEATS]);
    table.set_floats(place::ROUND_BETS, &data.player_bet);
}

pub fn game_state(table: &Table) -> GameState {
    let n = table.get(place::NUM_PLAYERS);
    let list = |at| -> PlayerVec<f32> { table.floats(at, n).collect() };
    let board = place::BOARD..place::BOARD + table.get(place::BOARD_LENGTH);
    GameState {
        num_players: n,
        player_active: set_of(table.seats(place::PLAYER_ACTIVE)),
        player_all_in: set_of(table.seats(place::PLAYER_ALL_IN)),
        total_pot: table.float(place::TOTAL_POT),
        stacks: list(place::STACKS),
        starting_stacks: list(place::STARTING_STACKS),
        player_bet: list(place::HAND_BETS),
        player_winnings: list(place::WINNINGS),
        big_blind: table.float(place::BIG_BLIND),
        small_blind: table.float(place::SMALL_BLIND),
        ante: table.float(place::ANTE),
        hands: (0..n).map(|_| Hand::default()).collect(),
        dealer_idx: table.get(place::DEALER_IDX),
        round: ROUNDS[table.get(place::ROUND)],
        round_before: ROUNDS[table.get(place::ROUND_BEFORE)],
        round_data: round_data(table),
        board: board.map(|at| Card::from(table.get(at) as u8)).collect(),
        bb_posted: table.get(place::BB_POSTED) == 1,
        sb_posted: table.get(place::SB_POSTED) == 1,
        max_raises_per_round: (table.get(place::HAS_CAP) == 1)
            .then_some(table.get(place::CAP) as u8),
    }
}

pub fn table(state: &GameState) -> Table {
    let mut table = Table::ZEROS;
    table.set(place::NUM_PLAYERS, state.num_players);
    table.set(place::DEALER_IDX, state.dealer_idx);
    table.set(place::ROUND, state.round as usize);
    table.set(place::ROUND_BEFORE, state.round_before as usize);
    table.set(place::PLAYER_ACTIVE, bits_of(state.player_active) as usize);
    table.set(place::PLAYER_ALL_IN, bits_of(state.player_all_in) as usize);
    table.set(place::BB_POSTED, state.bb_posted as usize);
    table.set(place::SB_POSTED, state.sb_posted as usize);
    table.set(place::HAS_CAP, state.max_raises_per_round.is_some() as usize);
    table.set(place::CAP, state.max_raises_per_round.unwrap_or(0) as usize);
    table.set(place::BOARD_LENGTH, state.board.len());
    for (offset, &card) in state.board.iter().take(MAX_BOARD).enumerate() {
        table.set(place::BOARD + offset, u8::from(card) as usize);
    }
    table.set_float(place::TOTAL_POT, state.total_pot);
    table.set_float(place::BIG_BLIND, state.big_blind);
    table.set_float(place::SMALL_BLIND, state.small_blind);
    table.set_float(place::ANTE, state.ante);
    table.set_floats(place::STACKS, &state.stacks);
    table.set_floats(place::STARTING_STACKS, &state.starting_stacks);
    table.set_floats(place::HAND_BETS, &state.player_bet);
    table.set_floats(place::WINNINGS, &state.player_winnings);
    put_round_data(&mut table, &state.round_data);
    table
}
