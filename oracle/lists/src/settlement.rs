//! One settlement of a record. The Rust has none: the refusals are by document
//! 01's conditions, and the awards are dealt chip by chip from the dealer's left.

use crate::chip_by_chip;
use crate::line::Line;
use crate::refusals::{ALREADY_PAID, BAD_RECORD, NOBODY_LEFT, NOT_WHOLE_CHIPS, Refusal};
use crate::sound;
use crate::table::{MAX_SEATS, Table, place};

/// The most that an amount may be, and the most that may be on the table.
pub const MOST_CHIPS: u32 = 8000;

/// How many ranks a line has: what a record that is not sound has for a number
/// of seats says nothing.
pub fn rank_count(table: &Table) -> usize {
    if sound::record(table) { table.get(place::NUM_PLAYERS) } else { MAX_SEATS }
}

/// Settles the table by one rank for each seat, and gives the line.
pub fn settle(table: &mut Table, ranks: &[u16]) -> Line {
    let line = ranks.iter().fold(Line::new('s'), |line, rank| line.token(rank));
    let after = match settled(table, ranks) {
        Ok(after) => after,
        Err(number) => return line.refused(number),
    };
    let line = rewards(&after).fold(line.answer(), Line::signed).changes(table, &after);
    *table = after;
    line
}

/// The table after settlement by one rank for each seat.
pub fn settled(table: &Table, ranks: &[u16]) -> Result<Table, Refusal> {
    check(table)?;
    Ok(paid(table, ranks))
}

/// In document 01's order.
fn check(table: &Table) -> Result<(), Refusal> {
    if !sound::record(table) {
        return Err(BAD_RECORD);
    }
    // A NaN is not 0, and -0.0 is.
    let n = table.get(place::NUM_PLAYERS);
    if table.floats(place::WINNINGS, n).any(|won| won != 0.0) {
        return Err(ALREADY_PAID);
    }
    if !in_chips(table, n) {
        return Err(NOT_WHOLE_CHIPS);
    }
    if contenders(table) == 0 {
        return Err(NOBODY_LEFT);
    }
    Ok(())
}

fn is_whole(x: f32) -> bool {
    (0.0..=MOST_CHIPS as f32).contains(&x) && x.fract() == 0.0
}

fn in_chips(table: &Table, n: usize) -> bool {
    let lists = [place::STACKS, place::HAND_BETS, place::STARTING_STACKS];
    let all_whole = lists.into_iter().all(|list| table.floats(list, n).all(is_whole));
    let pot = table.float(place::TOTAL_POT);
    all_whole
        && is_whole(pot)
        && sum(table, place::STACKS, n) + chips(pot) <= MOST_CHIPS
        && sum(table, place::HAND_BETS, n) == chips(pot)
}

fn chips(whole: f32) -> u32 {
    whole as u32
}

fn sum(table: &Table, list: usize, n: usize) -> u32 {
    table.floats(list, n).map(chips).sum()
}

/// The seats that are active or all in.
fn contenders(table: &Table) -> u16 {
    table.seats(place::PLAYER_ACTIVE) | table.seats(place::PLAYER_ALL_IN)
}

/// The table with its awards.
fn paid(table: &Table, ranks: &[u16]) -> Table {
    let n = table.get(place::NUM_PLAYERS);
    let bets: Vec<u32> = table.floats(place::HAND_BETS, n).map(chips).collect();
    let contends: Vec<bool> = (0..n).map(|seat| contenders(table) >> seat & 1 == 1).collect();
    let awards = chip_by_chip::awards(&bets, &contends, ranks, table.get(place::DEALER_IDX));
    let mut after = table.clone();
    for (seat, &award) in awards.iter().enumerate() {
        // What gets no chip is not written: a stack of -0.0 stays.
        if award > 0 {
            for at in [place::STACKS + seat, place::WINNINGS + seat] {
                after.set_float(at, (chips(table.float(at)) + award) as f32);
            }
        }
    }
    after
}

/// Each seat's stack less its starting stack.
pub fn rewards(table: &Table) -> impl Iterator<Item = i32> + '_ {
    let whole = |at| chips(table.float(at)) as i32;
    let seats = 0..table.get(place::NUM_PLAYERS);
    seats.map(move |seat| whole(place::STACKS + seat) - whole(place::STARTING_STACKS + seat))
}
