//! A table of ours beside the oracle's words.

use lists::places::NUMBERS;
use lists::table::{Table, WORDS, place};
use peatcloak::arena::GameState;

/// A sound table of the oracle as ours.
pub fn ours(table: &Table) -> GameState {
    let numbers = std::array::from_fn(|at| table.words[at]);
    let floats = std::array::from_fn(|at| table.float(NUMBERS + at));
    GameState::from_words(floats, numbers).expect("the table is sound")
}

/// Every word but the answers of a step, which the oracle's table has not; two zeros are equal, and two NaNs.
pub fn assert_same(state: &GameState, table: &Table, what: &str) {
    let (floats, numbers) = state.words();
    for at in (0..NUMBERS).filter(|&at| at != place::PASSED) {
        assert_eq!(numbers[at], table.words[at], "{what}, number {at}");
    }
    for at in (NUMBERS..WORDS).filter(|&at| at != place::PAID) {
        let (a, b) = (floats[at - NUMBERS], table.float(at));
        assert!(a == b || a.is_nan() && b.is_nan(), "{what}, word {at}: {a} and {b}");
    }
}
