//! Walks: a bet and a fold on 16 seats, by how far on the seat is that owes next; and the next round, which walks too.
//!
//! Each step finds the same table: some tables are put back by one copy, then each takes its step. The copy is measured alone too.

use std::hint::black_box;
use std::sync::LazyLock;

use lists::carry;
use lists::places::{FLOATS, NUMBERS};
use lists::table::{MAX_SEATS, Table};
use peatcloak::sys;
use rs_poker::arena::{GameState, GameStateBuilder};

use crate::figures::Named;

/// How far on the one seat is that owes besides the seat to act; none at NOBODY. The tables differ in this alone.
const NEAR: usize = 1;
const FAR: usize = MAX_SEATS - 1;
const NOBODY: usize = 0;

/// What the seat to act calls: the big blind.
const BET: f32 = 10.0;
/// So few stay in the first cache, with what is copied to them, on both sides.
const TABLES: usize = 16;
/// Half a millisecond in all.
const TIMES: usize = 600;

/// The copy alone, then what is told.
pub const THE_RUST: [Named; 8] = [
    ("rust-walk-copy", the_rust::copy),
    ("rust-bet-near", the_rust::bet::<NEAR>),
    ("rust-bet-far", the_rust::bet::<FAR>),
    ("rust-bet-nobody", the_rust::bet::<NOBODY>),
    ("rust-fold-near", the_rust::fold::<NEAR>),
    ("rust-fold-far", the_rust::fold::<FAR>),
    ("rust-fold-nobody", the_rust::fold::<NOBODY>),
    ("rust-advance", the_rust::advance),
];

pub const OURS: [Named; 8] = [
    ("walk-copy", ours::copy),
    ("bet-near", ours::bet::<NEAR>),
    ("bet-far", ours::bet::<FAR>),
    ("bet-nobody", ours::bet::<NOBODY>),
    ("fold-near", ours::fold::<NEAR>),
    ("fold-far", ours::fold::<FAR>),
    ("fold-nobody", ours::fold::<NOBODY>),
    ("advance", ours::advance),
];

/// What is told, in this order.
pub const TOLD: [&str; 7] = [
    "a bet, the next seat owes",
    "a bet, the last seat round owes",
    "a bet, nobody else owes",
    "a fold, the next seat owes",
    "a fold, the last seat round owes",
    "a fold, nobody else owes",
    "the next round, every seat active",
];

/// The tables by how far on the seat is that owes. Both blinds are posted, and seat 3 is to act.
static STATES: LazyLock<[Vec<GameState>; MAX_SEATS]> =
    LazyLock::new(|| std::array::from_fn(|distance| vec![state(distance); TABLES]));

static WORDS: LazyLock<[Vec<Table>; MAX_SEATS]> = LazyLock::new(|| {
    std::array::from_fn(|distance| STATES[distance].iter().map(carry::table).collect())
});

fn state(distance: usize) -> GameState {
    let builder = GameStateBuilder::new().stacks([1_000_000.0; MAX_SEATS]).blinds(BET, BET / 2.0);
    let mut state = builder.build().expect("16 stacks and two blinds");
    (0..3).for_each(|_| state.advance_round());
    for blind in [BET / 2.0, BET] {
        state.do_bet(blind, true).expect("a blind");
    }
    let actor = state.to_act_idx();
    let owing = 1 << actor | 1 << ((actor + distance) % MAX_SEATS);
    state.round_data.needs_action = carry::set_of(owing);
    assert!(is_whole(&state));
    state
}

/// Whether the state's bytes are the whole of it: each of its lists has its room within it.
fn is_whole(state: &GameState) -> bool {
    let seats = [&state.stacks, &state.starting_stacks, &state.player_bet, &state.player_winnings];
    let round = &state.round_data.player_bet;
    let spilled = seats.into_iter().chain([round]).any(|list| list.spilled());
    !(spilled || state.hands.spilled() || state.board.spilled())
}

/// All tables of a kind put back, and a step on each, again and again.
///
/// # Safety
/// The bytes of a table are the whole of it: it owns no memory elsewhere.
unsafe fn steps<T: Clone>(start: &[T], step: impl Fn(&mut T)) -> u64 {
    let mut tables = start.to_vec();
    for _ in 0..TIMES {
        let from = black_box(start);
        // SAFETY: both are there and are this long; what is written over owns nothing that was to be freed.
        unsafe { tables.as_mut_ptr().copy_from_nonoverlapping(from.as_ptr(), from.len()) };
        for table in black_box(&mut tables) {
            step(black_box(table));
        }
    }
    black_box(&tables);
    (TIMES * start.len()) as u64
}

mod the_rust {
    use super::*;

    fn each(distance: usize, step: impl Fn(&mut GameState)) -> u64 {
        // SAFETY: the bytes of each of these states are the whole of it, and no step makes a list longer.
        unsafe { steps(&STATES[distance], step) }
    }

    pub fn copy() -> u64 {
        each(NEAR, |_| ())
    }

    pub fn bet<const DISTANCE: usize>() -> u64 {
        let amount = black_box(BET);
        each(DISTANCE, |state| {
            let paid = state.do_bet(amount, false);
            assert!(paid.is_ok());
        })
    }

    pub fn fold<const DISTANCE: usize>() -> u64 {
        each(DISTANCE, GameState::fold)
    }

    pub fn advance() -> u64 {
        each(NEAR, GameState::advance_round)
    }
}

mod ours {
    use super::*;

    /// A step of the boundary on a table, in place; its refusal.
    macro_rules! call {
        ($step:ident, $table:expr $(, $more:expr)*) => {{
            let words = $table.words.as_mut_ptr();
            // SAFETY: both parts are there, are this long and do not overlap.
            unsafe { sys::$step(words.add(NUMBERS).cast(), FLOATS, words, NUMBERS $(, $more)*) }
        }};
    }

    pub fn do_bet(table: &mut Table, amount: f32) -> u32 {
        call!(peatcloak_do_bet, table, amount, 0)
    }

    pub fn do_fold(table: &mut Table) -> u32 {
        call!(peatcloak_fold, table)
    }

    pub fn advance_round(table: &mut Table) -> u32 {
        call!(peatcloak_advance_round, table)
    }

    fn each(distance: usize, step: impl Fn(&mut Table) -> u32) -> u64 {
        // SAFETY: a table is an array of words.
        unsafe { steps(&WORDS[distance], |table| assert_eq!(step(table), 0)) }
    }

    pub fn copy() -> u64 {
        each(NEAR, |_| 0)
    }

    pub fn bet<const DISTANCE: usize>() -> u64 {
        let amount = black_box(BET);
        each(DISTANCE, |table| do_bet(table, amount))
    }

    pub fn fold<const DISTANCE: usize>() -> u64 {
        each(DISTANCE, do_fold)
    }

    pub fn advance() -> u64 {
        each(NEAR, advance_round)
    }
}

#[cfg(test)]
mod tests {
    use lists::table::place;

    use super::*;

    /// Takes a step on both sides, from the table of a distance; tells how many seats our walk passed to.
    fn passed(
        distance: usize,
        ours: impl Fn(&mut Table) -> u32,
        theirs: impl Fn(&mut GameState),
    ) -> usize {
        let (mut state, mut table) = (state(distance), carry::table(&state(distance)));
        assert_eq!(ours(&mut table), 0);
        theirs(&mut state);
        let passed = table.get(place::PASSED);
        for answer in [place::PASSED, place::PAID] {
            table.words[answer] = 0;
        }
        assert_eq!(table.words, carry::table(&state).words);
        passed
    }

    #[test]
    fn both_sides_take_the_same_step_and_walk_as_far_as_is_told() {
        for (distance, due) in [(NEAR, 1), (FAR, 15), (NOBODY, 1)] {
            let bet = |state: &mut GameState| assert_eq!(state.do_bet(BET, false), Ok(BET));
            assert_eq!(passed(distance, |table| ours::do_bet(table, BET), bet), due);
            assert_eq!(passed(distance, ours::do_fold, GameState::fold), due);
            assert_eq!(passed(distance, ours::advance_round, GameState::advance_round), 1);
        }
    }

    #[test]
    fn each_table_is_put_back_before_its_step() {
        let start = vec![state(FAR); 3];
        let act = |state: &mut GameState| {
            assert_eq!(state.to_act_idx(), 3);
            state.fold();
        };
        // SAFETY: as in `the_rust`.
        assert_eq!(unsafe { steps(&start, act) }, 3 * TIMES as u64);
    }
}
