//! The ways to get a builder refused, one for each number of document 01.

use rs_poker::arena::RoundData;

use crate::builder::Builder;
use crate::builders::cards;
use crate::carry;
use crate::draw::Draw;
use crate::table::{MAX_SEATS, first_seats};

pub type Fault = fn(&mut Draw, &mut Builder);

/// In the builder's order.
pub const FAULTS: [Fault; 15] = [
    |_, builder| builder.stacks = None,
    |_, builder| builder.big_blind = None,
    wrong_count,
    |draw, builder| builder.big_blind = Some(draw.pick(&[0.0, -0.0, -1.0, f32::NAN, f32::MIN])),
    |draw, builder| builder.small_blind = Some(below_zero(draw)),
    |draw, builder| builder.ante = Some(below_zero(draw)),
    bad_stack,
    too_few_stacks,
    |draw, builder| builder.dealer_idx = Some(builder.players() + draw.below(5)),
    |draw, builder| builder.hands = Some(other_length(draw, builder.players())),
    |draw, builder| builder.player_bet = Some(vec![5.0; other_length(draw, builder.players())]),
    wrong_board,
    double_card,
    bad_card,
    bad_round_data,
];

fn below_zero(draw: &mut Draw) -> f32 {
    draw.pick(&[-1.0, -0.5, f32::NAN, f32::NEG_INFINITY, f32::from_bits(0x8000_0001)])
}

fn other_length(draw: &mut Draw, n: usize) -> usize {
    let length = draw.within(0, 19);
    if length < n { length } else { length + 1 }
}

fn wrong_count(draw: &mut Draw, builder: &mut Builder) {
    let n = draw.pick(&[0, 1, 17, 18, 19, 20]);
    let stacks = builder.stacks.get_or_insert_default();
    stacks.resize(n, 100.0);
}

fn bad_stack(draw: &mut Draw, builder: &mut Builder) {
    let stacks = builder.stacks.get_or_insert_with(|| vec![100.0; 3]);
    if !stacks.is_empty() {
        let seat = draw.below(stacks.len());
        stacks[seat] = below_zero(draw);
    }
}

/// In Starting a bet does not stand in for a stack.
fn too_few_stacks(draw: &mut Draw, builder: &mut Builder) {
    builder.round = draw.pick(&[None, Some(0)]);
    let stacks = builder.stacks.get_or_insert_with(|| vec![100.0; 3]);
    let one = draw.below(stacks.len() + 1);
    for (seat, stack) in stacks.iter_mut().enumerate() {
        // A stack that is refused stays, so that two faults can meet.
        if seat != one && *stack > 0.0 {
            *stack = 0.0;
        }
    }
}

fn wrong_board(draw: &mut Draw, builder: &mut Builder) {
    let length = draw.pick(&[1, 2, 6, 7, 8, 12, 20]);
    let board = builder.board.get_or_insert_default();
    let more = cards(draw, length);
    board.extend(more);
    board.truncate(length);
}

/// A board of five where none stood, so that a card can be spoilt in it.
fn board<'a>(draw: &mut Draw, builder: &'a mut Builder) -> &'a mut Vec<u8> {
    let board = builder.board.get_or_insert_default();
    if board.len() < 2 {
        *board = cards(draw, 5);
    }
    board
}

fn double_card(draw: &mut Draw, builder: &mut Builder) {
    let board = board(draw, builder);
    let later = draw.within(1, board.len() - 1);
    board[later] = board[draw.below(later)];
}

fn bad_card(draw: &mut Draw, builder: &mut Builder) {
    let board = board(draw, builder);
    let at = draw.below(board.len());
    board[at] = draw.pick(&[52, 53, 63, 64, 99, 128, 255]);
}

fn bad_round_data(draw: &mut Draw, builder: &mut Builder) {
    let n = builder.players();
    let everyone = carry::set_of(first_seats(n));
    let fresh = || RoundData::new(n, 10.0, everyone, 0);
    let data = builder.round_data.get_or_insert_with(fresh);
    let outside = draw.within(n.min(MAX_SEATS - 1), MAX_SEATS - 1);
    match draw.below(4) {
        0 => data.player_bet.resize(other_length(draw, n), 5.0),
        1 => data.to_act_idx = n + draw.below(5),
        2 if n < MAX_SEATS => data.starting_player_active.enable(outside),
        3 if n < MAX_SEATS => data.needs_action.enable(outside),
        _ => data.to_act_idx = n,
    }
}
