//! One table on both sides. After a bet only what it wrote is put back, and the whole of ours must then be as before.

use std::ops::RangeInclusive;

use lists::carry::{self, bits_of};
use lists::refusals;
use lists::table::{Table, place};
use rs_poker::arena::GameState;

use crate::boundary;
use crate::same;
use crate::theirs::distance;

/// 0 for taken, or a refusal.
pub const ANSWERS: usize = 27;

pub struct Bettor {
    is_forced: bool,
    seat: usize,
    base: Table,
    ours: Table,
    kept: GameState,
    theirs: GameState,
    pub counts: [u64; ANSWERS],
}

impl Bettor {
    /// The table is sound and its counters have room, so the Rust does not panic.
    pub fn at(table: &Table, is_forced: bool) -> Self {
        let theirs = carry::game_state(table);
        Bettor {
            is_forced,
            seat: theirs.to_act_idx(),
            base: table.clone(),
            ours: table.clone(),
            kept: theirs.clone(),
            theirs,
            counts: [0; ANSWERS],
        }
    }

    /// The bits of the first amount that makes a difference.
    pub fn bet_all(&mut self, amounts: RangeInclusive<u32>) -> Option<u32> {
        let last = *amounts.end();
        let different = amounts.into_iter().find(|&bits| !self.bet(f32::from_bits(bits)));
        // What a bet on the Rust's side left behind would show here.
        different.or_else(|| (!same::record(&self.base, &self.theirs)).then_some(last))
    }

    /// Whether both sides answer the same and have the same table.
    fn bet(&mut self, amount: f32) -> bool {
        let refused = boundary::do_bet(&mut self.ours, amount, self.is_forced);
        let theirs = self.theirs.do_bet(amount, self.is_forced);
        let is_same = match theirs {
            Err(error) => refused == refusals::of_bet(error),
            Ok(paid) => {
                let is_same = refused == 0 && self.is_same(paid);
                self.put_back();
                is_same
            }
        };
        self.counts[refused as usize % ANSWERS] += 1;
        is_same && self.ours.words == self.base.words
    }

    /// What a bet writes.
    fn is_same(&self, paid: f32) -> bool {
        let (ours, state, seat) = (&self.ours, &self.theirs, self.seat);
        let data = &state.round_data;
        let passed = distance(seat, data.to_act_idx, state.num_players);
        let floats = [
            (place::PAID, paid),
            (place::TOTAL_POT, state.total_pot),
            (place::ROUND_BET, data.bet),
            (place::MIN_RAISE, data.min_raise),
            (place::STACKS + seat, state.stacks[seat]),
            (place::HAND_BETS + seat, state.player_bet[seat]),
            (place::ROUND_BETS + seat, data.player_bet[seat]),
        ];
        let numbers: [(usize, u32); 8] = [
            (place::PASSED, passed as u32),
            (place::PLAYER_ACTIVE, bits_of(state.player_active).into()),
            (place::PLAYER_ALL_IN, bits_of(state.player_all_in).into()),
            (place::NEEDS_ACTION, bits_of(data.needs_action).into()),
            (place::TO_ACT_IDX, data.to_act_idx as u32),
            (place::TOTAL_BET_COUNT, data.total_bet_count.into()),
            (place::TOTAL_RAISE_COUNT, data.total_raise_count.into()),
            (place::FORCED_BET_COUNT, data.forced_bet_count.into()),
        ];
        floats.iter().fold(true, |same, &(at, x)| same & same::float(ours.float(at), x))
            & numbers.iter().fold(true, |same, &(at, x)| same & (ours.words[at] == x))
    }

    /// Puts back on both sides what a bet writes, and nothing else.
    fn put_back(&mut self) {
        let seat = self.seat;
        let written = [
            place::PASSED,
            place::PAID,
            place::PLAYER_ACTIVE,
            place::PLAYER_ALL_IN,
            place::NEEDS_ACTION,
            place::TO_ACT_IDX,
            place::TOTAL_BET_COUNT,
            place::TOTAL_RAISE_COUNT,
            place::FORCED_BET_COUNT,
            place::TOTAL_POT,
            place::ROUND_BET,
            place::MIN_RAISE,
            place::STACKS + seat,
            place::HAND_BETS + seat,
            place::ROUND_BETS + seat,
        ];
        for at in written {
            self.ours.words[at] = self.base.words[at];
        }
        let (state, kept) = (&mut self.theirs, &self.kept);
        state.total_pot = kept.total_pot;
        state.player_active = kept.player_active;
        state.player_all_in = kept.player_all_in;
        state.stacks[seat] = kept.stacks[seat];
        state.player_bet[seat] = kept.player_bet[seat];
        let (data, kept) = (&mut state.round_data, &kept.round_data);
        data.player_bet[seat] = kept.player_bet[seat];
        data.bet = kept.bet;
        data.min_raise = kept.min_raise;
        data.needs_action = kept.needs_action;
        data.to_act_idx = kept.to_act_idx;
        data.total_bet_count = kept.total_bet_count;
        data.total_raise_count = kept.total_raise_count;
        data.forced_bet_count = kept.forced_bet_count;
    }
}

#[cfg(test)]
mod tests {
    use super::Bettor;
    use crate::sweep::tables::TABLES;

    /// With another smallest raise on the Rust's side the first amount on which it bears is found.
    #[test]
    fn a_difference_is_found_where_it_is() {
        let mut bettor = Bettor::at(&TABLES[0].table(), false);
        let (from, raise) = (19.0_f32.to_bits(), 20.0_f32.to_bits());
        assert_eq!(bettor.bet_all(from..=raise), None);
        bettor.kept.round_data.min_raise = 10.5;
        bettor.put_back();
        let found = bettor.bet_all(from..=raise).expect("a raise by 10 is too small there");
        assert!((19.5..20.0).contains(&f32::from_bits(found)));
    }
}
