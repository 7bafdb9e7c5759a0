//! The example's lines compile and run with the other import: here `peatcloak` names rs_poker.

extern crate rs_poker as peatcloak;

include!("../examples/hand.rs");

#[test]
fn the_example_runs_on_rs_poker() {
    main();
}
