//! A build: six stacks, both blinds and a dealer.

use std::hint::black_box;

use lists::places::{AMOUNTS, FLOATS, GIVEN, NUMBERS, amount, given};
use lists::table::Table;
use peatcloak::sys;
use rs_poker::arena::GameStateBuilder;

const BUILDS: u64 = 4_000;
const STACKS: [f32; 6] = [100.0, 200.0, 300.0, 400.0, 500.0, 600.0];

pub fn rust() -> u64 {
    for _ in 0..BUILDS {
        let builder = GameStateBuilder::new().stacks(black_box(STACKS)).blinds(10.0, 5.0);
        let built = builder.dealer_idx(3).build();
        assert!(black_box(&built).is_ok());
    }
    BUILDS
}

pub fn ours() -> u64 {
    let mut amounts = [0.0; AMOUNTS];
    (amounts[amount::BIG_BLIND], amounts[amount::SMALL_BLIND]) = (10.0, 5.0);
    let mut given = [0; GIVEN];
    for place in [given::STACKS, given::BIG_BLIND, given::SMALL_BLIND, given::DEALER] {
        given[place] = 1;
    }
    given[given::DEALER_IS] = 3;
    for _ in 0..BUILDS {
        let mut table = Table::ZEROS;
        let stacks = black_box(STACKS);
        let words = table.words.as_mut_ptr();
        // SAFETY: all parts are there, are this long and do not overlap.
        let refused = unsafe {
            sys::peatcloak_build(
                words.add(NUMBERS).cast(),
                FLOATS,
                words,
                NUMBERS,
                stacks.as_ptr(),
                stacks.len(),
                stacks.as_ptr(),
                0,
                [0].as_ptr(),
                0,
                amounts.as_ptr(),
                amounts.len(),
                given.as_ptr(),
                given.len(),
            )
        };
        assert_eq!(refused, 0);
        black_box(&table);
    }
    BUILDS
}
