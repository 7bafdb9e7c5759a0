//! Keys for our side of a table. The Rust has none: nothing may hang on a good one, and every call must leave it.

use lists::draw::Draw;
use lists::key;
use lists::places::NUMBERS;
use lists::table::{Table, place};

/// The table with a key that is good, and anything at the words that no call reads or writes.
pub fn good(draw: &mut Draw, mut table: Table) -> Table {
    key::good(draw).put(&mut table);
    for at in place::FREE..NUMBERS {
        table.words[at] = draw.bits() as u32;
    }
    table
}

/// Once in 64 the key is bad, and the record so not sound.
pub fn any(draw: &mut Draw, table: Table) -> Table {
    let mut table = good(draw, table);
    if draw.once_in(64) {
        key::bad(draw).put(&mut table);
    }
    table
}
