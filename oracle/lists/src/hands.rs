//! The hands of document 01 at both sides of a line. They head the lists, so
//! that they can be read there by eye.

use crate::builder::Builder;
use crate::step::Step;
use crate::table::{Table, first_seats, place};

/// P1 to P12: the table and the step, in this order.
pub fn bets() -> Vec<(Table, Step)> {
    vec![
        (facing(0.0, 100.0, 10.0), Step::Bet(-0.0)),
        (facing(0.0, 100.0, 10.0), Step::Bet(f32::NAN)),
        (facing(0.0, 100.0, 10.0), Step::Bet(f32::INFINITY)),
        (facing(5.0, 95.0, 10.0), Step::Bet(9.0)),
        (facing(5.0, 95.0, 10.0), Step::Bet(15.0)),
        (facing(5.0, 95.0, 10.0), Step::Bet(20.0)),
        (facing(0.0, 12.0, 10.0), Step::Bet(12.0)),
        (facing(10_000.0, 5000.0, 10_000.0), Step::Bet(9999.0)),
        (facing(1000.0, 5000.0, 1000.0), Step::Bet(999.0)),
        (facing(0.0, 40.0, 10.0), Step::Forced(f32::NAN)),
        (facing(0.0, f32::EPSILON, 10.0), Step::Forced(0.0)),
        (facing(0.0, 2.0 * f32::EPSILON, 10.0), Step::Forced(0.0)),
    ]
}

/// Two seats at Preflop. Seat 0 is to act with this round bet and stack; seat 1
/// made the bet. The smallest raise is 10.
fn facing(own: f32, stack: f32, bet: f32) -> Table {
    let mut table = Table::ZEROS;
    table.set(place::NUM_PLAYERS, 2);
    table.set(place::ROUND_LENGTH, 2);
    table.set(place::ROUND, 3);
    table.set(place::ROUND_BEFORE, 2);
    for set in [place::PLAYER_ACTIVE, place::STARTING_PLAYER_ACTIVE, place::NEEDS_ACTION] {
        table.set(set, 0b11);
    }
    table.set_float(place::TOTAL_POT, own + bet);
    table.set_float(place::BIG_BLIND, 10.0);
    table.set_float(place::SMALL_BLIND, 5.0);
    table.set_float(place::ROUND_BET, bet);
    table.set_float(place::MIN_RAISE, 10.0);
    table.set_floats(place::STACKS, &[stack, 100.0]);
    table.set_floats(place::STARTING_STACKS, &[own + stack, bet + 100.0]);
    table.set_floats(place::HAND_BETS, &[own, bet]);
    table.set_floats(place::ROUND_BETS, &[own, bet]);
    table
}

/// Steps whose walk passes over seats, finds nobody owing, or comes back to its start; that only a
/// forced bet's or a new round's does, since the others clear the mark of the seat that acts. At
/// Preflop with two seats it is done twice. Seat 0 is the dealer and to act.
pub fn walked() -> Vec<(Table, Step)> {
    let (before_preflop, before_flop) = (2, 4);
    let opens = |n, round, active| (seated(n, round, active, 0), Step::Advance);
    vec![
        (owing(3, 0b101), Step::Bet(0.0)),
        (seated(3, 5, 0b101, 0b001), Step::AllIn),
        (owing(4, 0b1001), Step::Bet(0.0)),
        (owing(3, 0b001), Step::Bet(0.0)),
        (owing(3, 0b001), Step::Forced(0.0)),
        (seated(3, 5, 0b001, 0b001), Step::Forced(10.0)),
        (owing(3, 0b101), Step::Fold),
        (owing(4, 0b1001), Step::Fold),
        (owing(3, 0b001), Step::Fold),
        opens(2, before_preflop, 0b11),
        opens(2, before_preflop, 0b10),
        opens(2, before_preflop, 0b01),
        opens(2, before_preflop, 0b00),
        opens(3, before_preflop, 0b011),
        opens(3, before_preflop, 0b001),
        opens(2, before_flop, 0b01),
    ]
}

/// At Flop with all seats active, of which these owe.
fn owing(n: usize, owing: u16) -> Table {
    seated(n, 5, first_seats(n), owing)
}

/// So many seats with 100 each, before any bet of this round. The smallest raise is 10.
fn seated(n: usize, round: usize, active: u16, owing: u16) -> Table {
    let mut table = Table::ZEROS;
    table.set(place::NUM_PLAYERS, n);
    table.set(place::ROUND_LENGTH, n);
    table.set(place::ROUND, round);
    table.set(place::ROUND_BEFORE, round - 1);
    table.set(place::PLAYER_ACTIVE, active.into());
    table.set(place::STARTING_PLAYER_ACTIVE, active.into());
    table.set(place::NEEDS_ACTION, owing.into());
    table.set_float(place::BIG_BLIND, 10.0);
    table.set_float(place::MIN_RAISE, 10.0);
    for seat in 0..n {
        table.set_float(place::STACKS + seat, 100.0);
        table.set_float(place::STARTING_STACKS + seat, 100.0);
    }
    table
}

/// P13 and P14: round data of six seats with seat 5 to act, for the walk.
pub fn walks() -> [Table; 2] {
    [0, 1 << 5].map(|owing| {
        let mut table = Table::ZEROS;
        table.set(place::ROUND_LENGTH, 6);
        table.set(place::TO_ACT_IDX, 5);
        table.set(place::NEEDS_ACTION, owing);
        table
    })
}

/// The builders named in words: 17 stacks before big blind 0, one stack in
/// Starting and at Flop, and bad cards beside doubled ones and wrong lengths.
pub fn builders() -> Vec<Builder> {
    let of = |stacks: &[f32]| Builder {
        stacks: Some(stacks.to_vec()),
        big_blind: Some(10.0),
        ..Builder::default()
    };
    let with_board = |cards: &[u8]| Builder { board: Some(cards.to_vec()), ..of(&[100.0; 2]) };
    vec![
        Builder { big_blind: Some(0.0), ..of(&[100.0; 17]) },
        of(&[0.0, 100.0]),
        Builder { round: Some(5), ..of(&[0.0, 100.0]) },
        Builder::default(),
        of(&[]),
        of(&[100.0, 100.0]),
        with_board(&[7, 7, 99]),
        with_board(&[99, 99, 7]),
        with_board(&[7, 99, 7]),
        with_board(&[99, 99]),
    ]
}

#[cfg(test)]
mod tests {
    /// What stands last before the changes.
    fn count(line: &str) -> usize {
        let (_, answer) = line.split_once(" = ").expect("an answer");
        let values = answer.split(' ').take_while(|token| !token.contains(':'));
        values.last().expect("a count").parse().expect("a number")
    }

    #[test]
    fn the_walks_pass_to_so_many_seats() {
        let lines = super::walked().into_iter().map(|(mut table, step)| step.take(&mut table));
        let counts: Vec<usize> = lines.map(|line| count(line.text())).collect();
        assert_eq!(counts, [2, 2, 3, 1, 3, 3, 2, 3, 1, 2, 3, 4, 2, 1, 3, 2]);
    }
}
