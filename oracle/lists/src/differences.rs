//! The smallest inputs of docs/DIFFERENCES.md, in the order of its numbers. They head the
//! lists, after the hands of document 01; those of D1 and D2 stand in `seats` anyway.
//! tests/differences.rs holds the page and the lists to each other.

use rs_poker::arena::RoundData;

use crate::builder::Builder;
use crate::carry::{self, set_of};
use crate::line::Line;
use crate::round::{self, Asked};
use crate::step::{self, Step};
use crate::table::{MAX_BOARD, MAX_SEATS, Table, place};

/// D16 and D17. Here the first of two zeros is the answer, and a NaN has no sign; its
/// bits stand as they are only here.
pub fn floats() -> Vec<Line> {
    let zeros = |letter, a: f32, b: f32| Line::new(letter).float(a).float(b).answer().float(a);
    vec![
        zeros('x', 0.0, -0.0),
        zeros('x', -0.0, 0.0),
        zeros('m', 0.0, -0.0),
        zeros('m', -0.0, 0.0),
        Line::new('s').token("ffc00000").answer().flag(false),
    ]
}

/// Places of four bytes that are more than a list of the Rust can have.
const TOO_MANY: usize = 1 << 61;

/// D3 to D8, D14, D21 to D26, D32.
pub fn rounds() -> Vec<Line> {
    let empty = data(0, 0, 0);
    let seat_outside = data(1, 1, 0);
    let owing_outside = data(1, 0, 0b10);
    let bet = Asked::Bet(0.0, false);
    let mut lines = vec![
        asked(&empty, &[Asked::Walk]),
        asked(&empty, &[bet, Asked::Queries]),
        asked(&seat_outside, &[bet, Asked::Queries]),
        asked(&data(17, 15, 0b1), &[Asked::Walk]),
        // The last number that a word of a list holds.
        asked(&data(1, u32::MAX as usize, 0), &[Asked::Walk]),
        full(place::TOTAL_BET_COUNT, bet),
        full(place::TOTAL_RAISE_COUNT, Asked::Bet(1.0, false)),
        full(place::FORCED_BET_COUNT, Asked::Bet(0.0, true)),
    ];
    lines.extend([
        vec![round::new(1, 1.0, 0b10, 0).0],
        asked(&owing_outside, &[Asked::Walk]),
        vec![round::new(0, 1.0, 0, 0).0, round::new_with_bets(1.0, 0, 0, vec![]).0],
        vec![round::new_with_bets(1.0, 0, 0, vec![0.0; 17]).0],
        asked(&owing_outside, &[Asked::Queries]),
        asked(&owing_outside, &[Asked::Bet(1.0, false)]),
        asked(&data(2, 0, 0b110), &[Asked::Walk]),
        asked(&seat_outside, &[Asked::Walk]),
        vec![round::new(TOO_MANY, 1.0, 0, 0).0, round::new(TOO_MANY - 1, 1.0, 0, 0).0],
    ]);
    lines.into_iter().flatten().collect()
}

/// The page's "list of so many": what `RoundData::new` of the Rust makes, good or not.
fn data(length: usize, to_act: usize, owing: usize) -> Table {
    let mut table = Table::ZEROS;
    table.set(place::STARTING_PLAYER_ACTIVE, owing);
    table.set(place::NEEDS_ACTION, owing);
    table.set(place::TO_ACT_IDX, to_act);
    table.set(place::ROUND_LENGTH, length);
    table.set_float(place::MIN_RAISE, 1.0);
    table
}

fn asked(table: &Table, questions: &[Asked]) -> Vec<Line> {
    let mut after = table.clone();
    let answers = questions.iter().map(|question| question.of(&mut after));
    [round::loading(table)].into_iter().chain(answers).collect()
}

fn full(counter: usize, bet: Asked) -> Vec<Line> {
    let mut table = data(1, 0, 0);
    table.set(counter, 255);
    asked(&table, &[bet])
}

/// D19, D20 and D34; after it two that the Rust can be asked, one refused and one built.
pub fn builders() -> Vec<Builder> {
    let seats = |count| Builder {
        same_stacks: Some((count, 100.0)),
        big_blind: Some(10.0),
        ..Builder::default()
    };
    vec![
        Builder { board: Some(vec![0, 1, 52]), ..the_builder() },
        Builder { round_data: Some(RoundData::new(2, 10.0, set_of(0b11), 2)), ..the_builder() },
        seats(TOO_MANY),
        seats(MAX_SEATS + 1),
        seats(2),
    ]
}

fn the_builder() -> Builder {
    Builder { stacks: Some(vec![100.0; 2]), big_blind: Some(10.0), ..Builder::default() }
}

/// The page's "table", with some words changed.
fn with(changes: &[(usize, u32)]) -> Table {
    let mut table = the_builder().build().expect("the table is built");
    changes.iter().for_each(|&(place, word)| table.words[place] = word);
    table
}

/// D9 to D13, D15, D18, D27 to D31, D33, D35.
pub fn steps() -> Vec<Line> {
    let infinity = f32::INFINITY.to_bits();
    let mut lines = vec![
        taken(&[(place::TOTAL_BET_COUNT, 255)], &[Step::Bet(0.0)]),
        taken(&[(place::TOTAL_RAISE_COUNT, 255)], &[Step::Bet(10.0)]),
        taken(&[(place::FORCED_BET_COUNT, 255)], &[Step::Forced(0.0)]),
        taken(&[(place::TO_ACT_IDX, 2)], &[Step::Bet(10.0)]),
        taken(&[(place::TO_ACT_IDX, 16)], &[Step::Fold]),
        taken(&[(place::NUM_PLAYERS, 0)], &[Step::Advance]),
        taken(&[], &[Step::Award(2, 1.0), Step::Reward(2)]),
        taken(&[(place::NEEDS_ACTION, 0b101)], &[Step::Fold]),
        taken(&[(place::PLAYER_ACTIVE, 0b100)], &[Step::Advance]),
        taken(&[(place::STACKS, infinity), (place::STARTING_STACKS, infinity)], &[Step::Reward(0)]),
    ];
    lines.extend(unsound());
    lines.extend([
        fold_beside(place::STACKS + 2, 7.0_f32.to_bits()),
        fold_beside(place::BOARD, 7),
        taken(&[], &[Step::Award(0, 1.0)]),
        query_above_the_places(),
        // The last number that a word of a list holds.
        taken(&[(place::NUM_PLAYERS, u32::MAX)], &[Step::Advance, Step::Complete]),
    ]);
    lines.extend(panics_inside());
    lines.into_iter().flatten().collect()
}

fn taken(changes: &[(usize, u32)], steps: &[Step]) -> Vec<Line> {
    let mut table = with(changes);
    let loaded = step::loading(&table);
    let answers = steps.iter().map(|step| step.take(&mut table));
    [loaded].into_iter().chain(answers).collect()
}

/// The rows below D27.
fn unsound() -> Vec<Vec<Line>> {
    let dealer = (place::DEALER_IDX, 2);
    let over = (place::ROUND, 11);
    let cards = (0..MAX_BOARD).map(|card| (place::BOARD + card, card as u32));
    let board: Vec<_> = cards.chain([(place::BOARD_LENGTH, 6)]).collect();
    let all_in = (place::PLAYER_ALL_IN, 0b100);
    let chips = f32::to_bits;
    // Seat 2 is to act, of which only the round's list knows.
    let beyond =
        [(place::TO_ACT_IDX, 2), (place::ROUND_LENGTH, 3), (place::ROUND_BETS + 2, chips(20.0))];
    vec![
        taken(&[(place::TO_ACT_IDX, 2)], &[Step::Fold]),
        taken(&[dealer], &[Step::Advance]),
        taken(&[dealer], &[Step::Complete]),
        taken(&[dealer, over], &[Step::Advance, Step::Complete]),
        taken(&[(place::NUM_PLAYERS, 1)], &[Step::Advance]),
        taken(&[(place::ROUND_LENGTH, 3)], &[Step::Bet(10.0)]),
        taken(&[all_in], &[Step::Bet(10.0)]),
        taken(&board, &[Step::Bet(10.0)]),
        taken(&[all_in], &[Step::Award(0, 1.0), Step::Reward(0)]),
        taken(&[(place::TO_ACT_IDX, 2)], &[Step::Bet(-0.0), Step::Bet(f32::NAN)]),
        taken(&[all_in, (place::ROUND_BETS, chips(20.0))], &[Step::Bet(10.0)]),
        taken(&beyond, &[Step::Bet(10.0)]),
        taken(&[all_in, (place::ROUND_BET, chips(20.0))], &[Step::Bet(10.0)]),
        taken(&[all_in], &[Step::Bet(5.0)]),
    ]
}

/// The rows below D35.
fn panics_inside() -> Vec<Vec<Line>> {
    let seventeen = (place::ROUND_LENGTH, 17);
    let to_act = |seat| (place::TO_ACT_IDX, seat);
    let past_the_last =
        [(place::NUM_PLAYERS, 17), (place::DEALER_IDX, 15), (place::PLAYER_ACTIVE, 0b1)];
    vec![
        taken(&[(place::ROUND_LENGTH, 0)], &[Step::Fold]),
        taken(&[(place::ROUND_LENGTH, 1), to_act(1)], &[Step::Bet(10.0), Step::Forced(10.0)]),
        taken(&[seventeen, to_act(1)], &[Step::Fold, Step::Bet(0.0)]),
        taken(&past_the_last, &[Step::Advance]),
        taken(&[(place::DEALER_IDX, u32::MAX)], &[Step::Advance]),
        taken(&[(place::NUM_PLAYERS, 17), seventeen, to_act(16)], &[Step::Bet(0.0)]),
    ]
}

/// The Rust lacks the place: it is asked without it, and the place stays.
fn fold_beside(place: usize, word: u32) -> Vec<Line> {
    vec![step::loading(&with(&[(place, word)])), Step::Fold.take(&mut with(&[]))]
}

/// Seat 16 of a list of 17 bets. There are 16 places, so the Rust is asked with a list of 16.
fn query_above_the_places() -> Vec<Line> {
    let mut table = with(&[(place::ROUND_LENGTH, 17)]);
    table.set_floats(place::ROUND_BETS, &[5.0; MAX_SEATS]);
    let loaded = step::loading(&table);
    table.set(place::ROUND_LENGTH, MAX_SEATS);
    let written = Step::Query(MAX_SEATS).written();
    vec![loaded, step::query(written, &carry::game_state(&table), MAX_SEATS)]
}
