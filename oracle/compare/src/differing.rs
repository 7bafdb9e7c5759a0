//! A step on both sides; where they differ, it is made small and told.

use std::fmt::Write;

use lists::carry;
use lists::places::NUMBERS;
use lists::refusals::BAD_RECORD;
use lists::sound;
use lists::step::Step;
use lists::table::{Table, WORDS, place};

use crate::boundary;
use crate::difference::{Difference, shown, tell_places};
use crate::pair::{self, Pair};
use crate::shrink;
use crate::tally::Tally;
use crate::theirs;

impl Pair {
    /// The step on both sides, counted; where they differ, that made small.
    pub fn take(&mut self, step: &Step, tally: &mut Tally) -> Result<(), Box<Difference>> {
        if self.is_same(step, tally) {
            return Ok(());
        }
        let asks = matches!(step, Step::Query(_) | Step::Reward(_));
        Err(step_told(if asks { &self.ours } else { &self.before }, step))
    }
}

/// A step on a table, both made as small as they come with a difference still there.
pub fn step_told(table: &Table, step: &Step) -> Box<Difference> {
    let differs =
        |table: &Table, step: &Step| !Pair::load(table).is_same(step, &mut Tally::default());
    let shows = differs(table, step);
    let (table, step) =
        if shows { shrink::step(table, step, differs) } else { (table.clone(), *step) };
    let mut told = format!("table {}\nstep  {}\n", shown(&table), step.written().text());
    tell(&mut told, &table, &step);
    if !shows {
        told += "the step alone shows no difference: an earlier one left it behind\n";
    }
    Difference::new(told)
}

/// Both answers, and the places of both tables after it that differ.
fn tell(told: &mut String, table: &Table, step: &Step) {
    let mut got = table.clone();
    let call = table.float(place::ROUND_BET);
    if let Step::Query(seat) | Step::Reward(seat) = *step {
        let (refused, queries) = boundary::queries(table, seat);
        let reward = boundary::player_reward(table, seat);
        let ours = format!("queries {refused} {:?} {:?}", queries.amounts, queries.answers);
        writeln!(told, "ours  {ours}, reward {reward:?}").expect("text");
        let line = step.take(&mut got);
        writeln!(told, "Rust  {}", line.text()).expect("text");
        return;
    }
    let refused = pair::ours(&mut got, step, call);
    let answer = |refused: u32, paid: f32, passed: usize| match refused {
        0 => format!("taken, pays {paid} ({:08x}), passes to {passed} seats", paid.to_bits()),
        number => format!("refused with {number}"),
    };
    writeln!(told, "ours  {}", answer(refused, got.float(place::PAID), got.get(place::PASSED)))
        .expect("text");
    if !sound::record(table) {
        writeln!(told, "01    refused with {BAD_RECORD}: the record is not sound").expect("text");
        tell_places(told, &got, table, &[]);
        return;
    }
    let mut state = carry::game_state(table);
    let expected = theirs::take(&mut state, step, call);
    let rust = answer(expected.refused, expected.paid, expected.passed);
    writeln!(told, "Rust  {rust}").expect("text");
    let after =
        if expected.refused == 0 { with_tails(table, carry::table(&state)) } else { table.clone() };
    tell_places(told, &got, &after, &[place::PAID, place::PASSED]);
}

/// The Rust's table with the places that only ours has.
fn with_tails(before: &Table, mut after: Table) -> Table {
    let mut kept = before.clone();
    kept.clear_tails();
    for at in 0..WORDS {
        if kept.words[at] != before.words[at] {
            after.words[at] = before.words[at];
        }
    }
    for ours in [place::ADDED..NUMBERS, place::PAID + 1..place::STACKS] {
        after.words[ours.clone()].copy_from_slice(&before.words[ours]);
    }
    after
}
