//! A bet: six seats with 1,000,000 chips each raise one after the other, each by the smallest raise.
//!
//! Counters are of eight bits, so after 200 bets the table is put back.

use std::hint::black_box;
use std::sync::LazyLock;

use lists::carry;
use lists::places::{FLOATS, NUMBERS, run};
use lists::table::Table;
use peatcloak::{parts, sys};
use rs_poker::arena::{GameState, GameStateBuilder};

const BETS: usize = 200;
/// Half a millisecond of bets: a measure that is short meets a quiet moment of the machine as often as any other.
const TABLES: u64 = 100;
/// A clone takes longer, and there are fewer.
const FEWER: u64 = 20;

static START: LazyLock<GameState> = LazyLock::new(|| {
    let builder = GameStateBuilder::new().stacks([1_000_000.0; 6]).blinds(10.0, 5.0);
    let mut state = builder.build().expect("six stacks and two blinds");
    (0..3).for_each(|_| state.advance_round());
    state
});

static WORDS_AT_START: LazyLock<Table> = LazyLock::new(|| carry::table(&START));

/// Each is the bet and the smallest raise, so each is accepted.
static AMOUNTS: LazyLock<[f32; BETS]> = LazyLock::new(|| {
    let mut state = START.clone();
    std::array::from_fn(|_| {
        let amount = state.round_data.bet + state.round_data.min_raise;
        state.do_bet(amount, false).expect("a smallest raise");
        amount
    })
});

pub fn rust_in_place() -> u64 {
    for _ in 0..TABLES {
        let mut state = START.clone();
        for &amount in AMOUNTS.iter() {
            let paid = black_box(&mut state).do_bet(amount, false);
            assert!(paid.is_ok());
        }
        black_box(&state);
    }
    TABLES * BETS as u64
}

pub fn rust_clone() -> u64 {
    for _ in 0..FEWER {
        let mut state = START.clone();
        for &amount in AMOUNTS.iter() {
            let mut after = black_box(&state).clone();
            let paid = after.do_bet(amount, false);
            assert!(paid.is_ok());
            state = after;
        }
        black_box(&state);
    }
    FEWER * BETS as u64
}

pub fn across() -> u64 {
    for _ in 0..TABLES {
        let mut table = WORDS_AT_START.clone();
        for &amount in AMOUNTS.iter() {
            let words = black_box(&mut table).words.as_mut_ptr();
            // SAFETY: both parts are there, are this long and do not overlap.
            let refused = unsafe {
                sys::peatcloak_do_bet(words.add(NUMBERS).cast(), FLOATS, words, NUMBERS, amount, 0)
            };
            assert_eq!(refused, 0);
        }
        black_box(&table);
    }
    TABLES * BETS as u64
}

pub fn by_value() -> u64 {
    let amounts = &*AMOUNTS;
    for _ in 0..TABLES {
        let mut table = WORDS_AT_START.clone();
        let words = black_box(&mut table).words.as_mut_ptr();
        // SAFETY: the parts and the amounts are there, are this long and do not overlap.
        let refused = unsafe {
            let floats = words.add(NUMBERS).cast();
            parts::peatcloak_run_bets(floats, FLOATS, words, NUMBERS, amounts.as_ptr(), BETS)
        };
        assert_eq!((refused, table.get(run::TAKEN)), (0, BETS));
        black_box(&table);
    }
    TABLES * BETS as u64
}
