//! Draws builders that are accepted, with odd amounts where any are allowed.

use rs_poker::arena::RoundData;

use crate::amounts;
use crate::builder::Builder;
use crate::carry::{self, ROUNDS};
use crate::draw::Draw;

/// Each field that may be absent is, one time in two.
pub fn good(draw: &mut Draw) -> Builder {
    let n = draw.players();
    Builder {
        same_stacks: None,
        stacks: Some(stacks(draw, n)),
        big_blind: Some(positive(draw)),
        small_blind: given(draw, not_negative),
        ante: given(draw, not_negative),
        dealer_idx: given(draw, |draw| draw.below(n)),
        cap: given(draw, |draw| given(draw, |draw| draw.pick(&[0, 1, 2, 3, 4, 255]))),
        round: given(draw, |draw| draw.below(ROUNDS.len())),
        board: given(draw, board),
        hands: given(draw, |_| n),
        player_bet: given(draw, |draw| (0..n).map(|_| hand_bet(draw)).collect()),
        round_data: given(draw, |draw| round_data(draw, n)),
        key: None,
    }
}

fn given<T>(draw: &mut Draw, value: impl Fn(&mut Draw) -> T) -> Option<T> {
    draw.once_in(2).then(|| value(draw))
}

fn board(draw: &mut Draw) -> Vec<u8> {
    let length = draw.pick(&[0, 3, 4, 5]);
    cards(draw, length)
}

/// Different cards of the deck, so at most 52 of them.
pub fn cards(draw: &mut Draw, length: usize) -> Vec<u8> {
    let mut deck: Vec<u8> = (0..52).collect();
    (0..length).map(|_| deck.swap_remove(draw.below(deck.len()))).collect()
}

/// Two stacks above 0, so that a new game can start; the others may be none.
fn stacks(draw: &mut Draw, n: usize) -> Vec<f32> {
    let mut stacks: Vec<f32> = (0..n)
        .map(|_| match draw.below(6) {
            0 => draw.pick(&[0.0, -0.0]),
            1 => not_negative(draw),
            _ => 1.0 + amounts::whole(draw, 999),
        })
        .collect();
    let first = draw.below(n);
    for seat in [first, (first + 1) % n] {
        if stacks[seat] <= 0.0 {
            stacks[seat] = positive(draw);
        }
    }
    stacks
}

fn positive(draw: &mut Draw) -> f32 {
    let x = amounts::any(draw).abs();
    if x > 0.0 { x } else { 10.0 }
}

fn not_negative(draw: &mut Draw) -> f32 {
    let x = amounts::any(draw);
    if x >= 0.0 { x } else { amounts::whole(draw, 100) }
}

/// Hand bets are not looked at by the builder: any float goes.
fn hand_bet(draw: &mut Draw) -> f32 {
    match draw.below(4) {
        0 => 0.0,
        1 => amounts::any(draw),
        _ => amounts::whole(draw, 100),
    }
}

fn round_data(draw: &mut Draw, n: usize) -> RoundData {
    RoundData {
        starting_player_active: carry::set_of(draw.seats(n)),
        needs_action: carry::set_of(draw.seats(n)),
        min_raise: amounts::any(draw),
        bet: amounts::any(draw),
        player_bet: (0..n).map(|_| amounts::any(draw)).collect(),
        total_bet_count: draw.bits() as u8,
        total_raise_count: draw.bits() as u8,
        forced_bet_count: draw.bits() as u8,
        to_act_idx: draw.below(n),
    }
}
