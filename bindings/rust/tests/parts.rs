//! What libparts.a has: a run's answers. The tests of the boundary and of the differences ask the rest of it.

#[path = "common/words.rs"]
mod words;

use peatcloak::arena::GameStateBuilder;
use peatcloak::places::{number, run};
use words::Words;

#[test]
fn a_run_tells_what_was_paid_and_how_many_bets_were_taken() {
    let builder = GameStateBuilder::new().stacks([100.0, 100.0]).big_blind(10.0);
    let start = Words::of(&builder.build().expect("a table"));
    let answers = |words: &Words| (words.floats[run::PAID], words.numbers[run::TAKEN]);

    // A bet of 10, one that does not call it, a raise to 30.
    let (mut ran, mut one_by_one) = (start.clone(), start.clone());
    assert_eq!(ran.run_bets(&[10.0, 5.0, 30.0]), 0);
    assert_eq!(answers(&ran), (40.0, 2));
    assert_eq!([10.0, 5.0, 30.0].map(|amount| one_by_one.do_bet(amount, false)), [0, 16, 0]);
    (ran.floats[run::PAID], ran.numbers[run::TAKEN]) = answers(&one_by_one);
    assert_eq!(ran.bits(), one_by_one.bits());

    let mut none = start.clone();
    assert_eq!((none.run_bets(&[]), answers(&none)), (0, (0.0, 0)));

    // `Words` sees that it writes nothing.
    let mut unsound = start;
    unsound.numbers[number::DEALER_IDX] = 2;
    assert_eq!((unsound.run_bets(&[]), unsound.run_bets(&[10.0])), (19, 19));
}
