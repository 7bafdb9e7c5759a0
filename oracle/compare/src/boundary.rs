//! Our side: the boundary's calls on a table's words, in place. Numbers stand before the floats there.

use lists::places::{AMOUNTS, FLOATS, GIVEN, NUMBERS};
use lists::table::{MAX_SEATS, Table};
use peatcloak::parts::peatcloak_run_bets;
use peatcloak::sys::{
    peatcloak_advance_round, peatcloak_award, peatcloak_build, peatcloak_complete,
    peatcloak_do_bet, peatcloak_fold, peatcloak_play_table, peatcloak_player_reward,
    peatcloak_queries, peatcloak_round_advance_action, peatcloak_round_do_bet, peatcloak_round_new,
    peatcloak_round_new_with_bets, peatcloak_round_queries, peatcloak_settle,
};

/// A call that writes the table.
macro_rules! call {
    ($step:ident, $table:expr $(, $more:expr)*) => {{
        let words = $table.words.as_mut_ptr();
        // SAFETY: both parts are there, are this long and do not overlap; a float may have any bits.
        unsafe { $step(words.add(NUMBERS).cast(), FLOATS, words, NUMBERS $(, $more)*) }
    }};
}

/// A call that reads the table.
macro_rules! ask {
    ($query:ident, $table:expr $(, $more:expr)*) => {{
        let words = $table.words.as_ptr();
        // SAFETY: as for a call that writes.
        unsafe { $query(words.add(NUMBERS).cast(), FLOATS, words, NUMBERS $(, $more)*) }
    }};
}

pub fn do_bet(table: &mut Table, amount: f32, is_forced: bool) -> u32 {
    call!(peatcloak_do_bet, table, amount, is_forced.into())
}

pub fn fold(table: &mut Table) -> u32 {
    call!(peatcloak_fold, table)
}

pub fn advance_round(table: &mut Table) -> u32 {
    call!(peatcloak_advance_round, table)
}

pub fn complete(table: &mut Table) -> u32 {
    call!(peatcloak_complete, table)
}

pub fn award(table: &mut Table, seat: usize, amount: f32) -> u32 {
    call!(peatcloak_award, table, seat as u32, amount)
}

pub fn player_reward(table: &Table, seat: usize) -> (u32, f32) {
    let mut reward = 0.0;
    let refused = ask!(peatcloak_player_reward, table, seat as u32, &raw mut reward, 1);
    (refused, reward)
}

/// All queries at once.
#[derive(Default)]
pub struct Queries {
    pub amounts: [f32; 6],
    pub answers: [u32; 7],
}

pub fn queries(table: &Table, seat: usize) -> (u32, Queries) {
    let mut got = Queries::default();
    let Queries { amounts, answers } = &mut got;
    let (told, said) = (amounts.as_mut_ptr(), answers.as_mut_ptr());
    let (seat, amounts, answers) = (seat as u32, amounts.len(), answers.len());
    let refused = ask!(peatcloak_queries, table, seat, told, amounts, said, answers);
    (refused, got)
}

pub fn settle(table: &mut Table, ranks: &[u16; MAX_SEATS]) -> (u32, [i32; MAX_SEATS]) {
    let mut rewards = [0; MAX_SEATS];
    let (given, taken) = (ranks.as_ptr(), rewards.as_mut_ptr());
    let refused = call!(peatcloak_settle, table, given, MAX_SEATS, taken, MAX_SEATS);
    (refused, rewards)
}

pub fn play_table(table: &mut Table, script: &[u8]) -> u32 {
    call!(peatcloak_play_table, table, script.as_ptr(), script.len())
}

pub fn run_bets(table: &mut Table, amounts: &[f32]) -> u32 {
    call!(peatcloak_run_bets, table, amounts.as_ptr(), amounts.len())
}

/// What a builder is given, as the boundary takes it.
pub struct Given<'a> {
    pub stacks: &'a [f32],
    pub player_bet: &'a [f32],
    pub board: &'a [u8],
    pub amounts: [f32; AMOUNTS],
    pub given: [u32; GIVEN],
}

pub fn build(table: &mut Table, with: &Given) -> u32 {
    let Given { stacks, player_bet, board, amounts, given } = with;
    call!(
        peatcloak_build,
        table,
        stacks.as_ptr(),
        stacks.len(),
        player_bet.as_ptr(),
        player_bet.len(),
        board.as_ptr(),
        board.len(),
        amounts.as_ptr(),
        amounts.len(),
        given.as_ptr(),
        given.len()
    )
}

pub fn round_new(table: &mut Table, n: usize, min_raise: f32, active: u16, to_act: usize) -> u32 {
    call!(peatcloak_round_new, table, n as u32, min_raise, active, to_act as u32)
}

pub fn round_new_with_bets(
    table: &mut Table,
    min_raise: f32,
    active: u16,
    to_act: usize,
    bets: &[f32],
) -> u32 {
    let (first, count) = (bets.as_ptr(), bets.len());
    let to_act = to_act as u32;
    call!(peatcloak_round_new_with_bets, table, min_raise, active, to_act, first, count)
}

pub fn round_advance_action(table: &mut Table) -> u32 {
    call!(peatcloak_round_advance_action, table)
}

pub fn round_do_bet(table: &mut Table, extra: f32, is_forced: bool) -> u32 {
    call!(peatcloak_round_do_bet, table, extra, is_forced.into())
}

/// current_player_bet, then num_players_need_action, is_action_unopened and the first one's refusal.
pub fn round_queries(table: &Table) -> (u32, f32, [u32; 3]) {
    let (mut bet, mut answers) = (0.0, [0; 3]);
    let refused =
        ask!(peatcloak_round_queries, table, &raw mut bet, 1, answers.as_mut_ptr(), answers.len());
    (refused, bet, answers)
}
