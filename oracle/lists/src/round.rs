//! One question to round data: asked of the Rust, or refused by document 01's conditions.

use rs_poker::arena::RoundData;

use crate::carry;
use crate::line::Line;
use crate::refusals::{BAD_RECORD, COUNTER_FULL};
use crate::sound;
use crate::table::{MAX_SEATS, Table, place};
use crate::walk;

/// What round data is asked: `advance_action`, `do_bet`, the queries.
#[derive(Clone, Copy)]
pub enum Asked {
    Walk,
    Bet(f32, bool),
    Queries,
}

impl Asked {
    /// Asks it of the table and gives the line.
    pub fn of(&self, table: &mut Table) -> Line {
        match *self {
            Asked::Walk => walk(table),
            Asked::Bet(amount, forced) => bet(table, amount, forced),
            Asked::Queries => ask(table),
        }
    }
}

pub fn loading(table: &Table) -> Line {
    Line::new('L').new_table(table)
}

pub fn new(length: usize, min_raise: f32, active: u16, to_act: usize) -> (Line, Option<Table>) {
    let line = Line::new('N').token(length).float(min_raise).token(active).token(to_act);
    let ask = || RoundData::new(length, min_raise, carry::set_of(active), to_act);
    made(line, are_good(length, active, to_act).then(ask))
}

pub fn new_with_bets(
    min_raise: f32,
    active: u16,
    to_act: usize,
    bets: Vec<f32>,
) -> (Line, Option<Table>) {
    let line = Line::new('B').float(min_raise).token(active).token(to_act);
    let line = line.token(bets.len()).floats(&bets);
    let good = are_good(bets.len(), active, to_act);
    let ask = || RoundData::new_with_bets(min_raise, carry::set_of(active), to_act, bets);
    made(line, good.then(ask))
}

fn are_good(length: usize, active: u16, to_act: usize) -> bool {
    let fits = (1..=MAX_SEATS).contains(&length);
    fits && to_act < length && sound::within(active, length)
}

fn made(line: Line, data: Option<RoundData>) -> (Line, Option<Table>) {
    let Some(data) = data else {
        return (line.refused(BAD_RECORD), None);
    };
    let mut table = Table::ZEROS;
    carry::put_round_data(&mut table, &data);
    (line.answer().new_table(&table), Some(table))
}

fn walk(table: &mut Table) -> Line {
    let line = Line::new('w');
    if !sound::round_data(table) {
        return line.refused(BAD_RECORD);
    }
    let (before, from) = (table.clone(), table.get(place::TO_ACT_IDX));
    let mut data = carry::round_data(table);
    data.advance_action();
    carry::put_round_data(table, &data);
    line.answer().token(walk::passed(table, from, 1)).changes(&before, table)
}

fn bet(table: &mut Table, amount: f32, forced: bool) -> Line {
    let line = Line::new('b').float(amount).flag(forced);
    if !sound::round_data(table) {
        return line.refused(BAD_RECORD);
    }
    let mut rehearsed = carry::round_data(table);
    sound::clear_counters(&mut rehearsed);
    rehearsed.do_bet(amount, forced);
    if sound::counter_full(carry::round_data(table), rehearsed) {
        return line.refused(COUNTER_FULL);
    }
    let mut data = carry::round_data(table);
    data.do_bet(amount, forced);
    changed(line.answer(), table, &data)
}

fn changed(line: Line, table: &mut Table, data: &RoundData) -> Line {
    let before = table.clone();
    carry::put_round_data(table, data);
    line.changes(&before, table)
}

fn ask(table: &Table) -> Line {
    let line = Line::new('q');
    if !sound::round_data(table) {
        return line.refused(BAD_RECORD);
    }
    let data = carry::round_data(table);
    let line = line.answer().token(data.num_players_need_action());
    line.flag(data.is_action_unopened()).float(data.current_player_bet())
}
