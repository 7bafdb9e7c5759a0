//! Bets in a run, by value inside the library, against the same bets in place, each of which the Rust makes too.

use lists::draw::Draw;
use lists::places::run;
use lists::refusals::BAD_RECORD;
use lists::step::Step;
use lists::table::{Table, place};
use lists::{broken, sound, tables, wagers};

use crate::boundary;
use crate::difference::{Difference, shown, tell_places};
use crate::keys;
use crate::pair::Pair;
use crate::same;
use crate::tally::{Kind, Tally};

pub fn any(draw: &mut Draw, tally: &mut Tally) -> Result<(), Box<Difference>> {
    let table = match draw.below(20) {
        0 => broken::table(draw),
        1..=9 => tables::half_played(draw),
        _ => tables::strange(draw),
    };
    let table = keys::any(draw, table);
    let (amounts, after) = one_by_one(draw, &table, tally)?;
    let expected = if sound::record(&table) { 0 } else { BAD_RECORD };
    match expected {
        0 => tally.count_many(Kind::Run, amounts.len() as u64),
        number => tally.count(Kind::Run, number),
    }
    let mut got = table.clone();
    let refused = boundary::run_bets(&mut got, &amounts);
    let is_same = match expected {
        0 => same::tables(&got, &after, &[]),
        _ => got.words == table.words,
    };
    if refused == expected && is_same {
        return Ok(());
    }
    let bits: Vec<String> = amounts.iter().map(|x| format!("{:08x}", x.to_bits())).collect();
    let answers = format!("ours  refused {refused}\n01    refused {expected}\n");
    let mut told = format!("table {}\nrun of {}\n{answers}", shown(&table), bits.join(" "));
    tell_places(&mut told, &got, &after, &[]);
    Err(Difference::new(told))
}

/// The amounts, and the table after the last of them with a run's answers. A bet that is taken is counted. Where the
/// table is not sound none is, and a run has no answer.
fn one_by_one(
    draw: &mut Draw,
    table: &Table,
    tally: &mut Tally,
) -> Result<(Vec<f32>, Table), Box<Difference>> {
    let mut pair = Pair::load(table);
    let (mut amounts, mut paid, mut taken) = (Vec::new(), 0.0, 0);
    for _ in 0..draw.within(0, 40) {
        let amount = wagers::voluntary(draw, &pair.ours);
        let count = pair.ours.get(place::TOTAL_BET_COUNT);
        pair.take(&Step::Bet(amount), tally)?;
        if pair.ours.get(place::TOTAL_BET_COUNT) > count {
            paid += pair.ours.float(place::PAID);
            taken += 1;
        }
        amounts.push(amount);
    }
    let mut after = pair.ours;
    if sound::record(table) {
        after.set_float(run::PAID, paid);
        after.set(run::TAKEN, taken);
    }
    Ok((amounts, after))
}
