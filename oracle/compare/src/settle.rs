//! Settlements, which the Rust has not: ours against the chips dealt one by one.

use std::fmt::Write;

use lists::draw::Draw;
use lists::settlement;
use lists::settlements;
use lists::table::{MAX_SEATS, Table, place};

use crate::boundary;
use crate::difference::{Difference, shown, tell_places};
use crate::keys;
use crate::shrink;
use crate::tally::{Kind, Tally};

/// A table drawn as the list `settlements` draws them, settled once or twice.
pub fn drawn(draw: &mut Draw, tally: &mut Tally) -> Result<(), Box<Difference>> {
    let table = settlements::drawn(draw);
    let mut table = keys::any(draw, table);
    once(draw, &table, tally)?;
    let ranks = ranks(draw, &table);
    if boundary::settle(&mut table, &ranks).0 == 0 {
        once(draw, &table, tally)?;
    }
    Ok(())
}

pub fn once(draw: &mut Draw, table: &Table, tally: &mut Tally) -> Result<(), Box<Difference>> {
    let ranks = ranks(draw, table);
    tally.count(Kind::Settle, expected(table, &ranks).err().unwrap_or(0));
    if is_same(table, &ranks) {
        return Ok(());
    }
    let small = shrink::smaller_table(table, |table| !is_same(table, &ranks));
    Err(told(&small, &ranks))
}

fn ranks(draw: &mut Draw, table: &Table) -> [u16; MAX_SEATS] {
    let drawn = settlements::ranks(draw, settlement::rank_count(table));
    std::array::from_fn(|seat| drawn.get(seat).copied().unwrap_or(0))
}

fn expected(table: &Table, ranks: &[u16; MAX_SEATS]) -> Result<Table, u32> {
    settlement::settled(table, &ranks[..settlement::rank_count(table)])
}

/// Bit for bit: what gets no chip is not written, so a stack of -0.0 stays.
fn is_same(table: &Table, ranks: &[u16; MAX_SEATS]) -> bool {
    let mut got = table.clone();
    let (refused, rewards) = boundary::settle(&mut got, ranks);
    match expected(table, ranks) {
        Err(number) => refused == number && got.words == table.words,
        Ok(mut after) => {
            for answer in [place::PAID, place::PASSED] {
                after.words[answer] = got.words[answer];
            }
            let same_rewards = settlement::rewards(&after).zip(rewards).all(|(a, b)| a == b);
            refused == 0 && got.words == after.words && same_rewards
        }
    }
}

fn told(table: &Table, ranks: &[u16; MAX_SEATS]) -> Box<Difference> {
    let mut told = format!("table {}\nsettled by {ranks:?}\n", shown(table));
    let mut got = table.clone();
    let (refused, rewards) = boundary::settle(&mut got, ranks);
    writeln!(told, "ours  refused {refused}, rewards {rewards:?}").expect("text");
    match expected(table, ranks) {
        Err(number) => writeln!(told, "01    refused {number}").expect("text"),
        Ok(after) => {
            let rewards: Vec<i32> = settlement::rewards(&after).collect();
            writeln!(told, "chip by chip: rewards {rewards:?}").expect("text");
            tell_places(&mut told, &got, &after, &[place::PAID, place::PASSED]);
        }
    }
    Difference::new(told)
}
