//! Draws tables in good order: with blinds just posted, or half-played. Few chips
//! and a small smallest raise come often, for there a run comes near its bound.

use rs_poker::arena::{GameState, GameStateBuilder, Round, RoundData};
use rs_poker::core::PlayerBitSet;

use crate::draw::Draw;
use crate::order::MOST_CHIPS;

pub fn any(draw: &mut Draw) -> GameState {
    loop {
        let state = if draw.once_in(4) { blinds_posted(draw) } else { half_played(draw) };
        // Where nobody owes there is nothing to play.
        if !state.round_data.needs_action.empty() {
            return state;
        }
    }
}

/// Two to six seats mostly.
fn players(draw: &mut Draw) -> usize {
    match draw.below(10) {
        0..=3 => draw.within(2, 3),
        4..=7 => draw.within(4, 6),
        _ => draw.within(7, 16),
    }
}

/// The most chips of one seat, so that all seats together stay in good order.
fn most_chips(draw: &mut Draw, n: usize) -> usize {
    match draw.below(20) {
        0..=5 => draw.within(1, 5),
        6..=14 => draw.within(6, 20),
        15..=18 => draw.within(21, 60),
        _ => MOST_CHIPS / n,
    }
}

fn min_raise(draw: &mut Draw, most: usize) -> usize {
    match draw.below(10) {
        0..=5 => 1,
        6..=7 => 2,
        8 => draw.within(1, most + 1),
        _ => draw.pick(&[3, 5, 10, MOST_CHIPS]),
    }
}

fn builder(stacks: Vec<f32>, dealer: usize, big_blind: usize) -> GameStateBuilder {
    GameStateBuilder::new()
        .stacks(stacks)
        .dealer_idx(dealer)
        .blinds(big_blind as f32, (big_blind / 2) as f32)
        .max_raises_per_round(None)
}

/// A new game, played by the Rust to where the first voluntary action comes.
fn blinds_posted(draw: &mut Draw) -> GameState {
    let n = players(draw);
    let most = most_chips(draw, n);
    let stacks = (0..n).map(|_| draw.within(1, most) as f32).collect();
    let big_blind = draw.pick(&[1, 1, 2, 2, 4]);
    let builder = builder(stacks, draw.below(n), big_blind);
    let mut state = builder.build().expect("whole chips are accepted");
    while state.round != Round::Preflop {
        state.advance_round();
    }
    for blind in [state.small_blind, state.big_blind] {
        state.do_bet(blind, true).expect("a forced bet is accepted");
    }
    state
}

/// A table in the middle of a hand. Seats may owe whether they met the bet or
/// not: good order does not ask for more.
fn half_played(draw: &mut Draw) -> GameState {
    let n = players(draw);
    let most = most_chips(draw, n);
    let money: Vec<Money> = (0..n).map(|_| Money::draw(draw, most)).collect();
    let active = set_where(n, |seat| money[seat].stack > 0 && !draw.once_in(8));
    let all_owe = draw.once_in(2);
    let owing = set_where(n, |seat| active.get(seat) && (all_owe || draw.once_in(2)));
    let turns: Vec<usize> = owing.ones().collect();
    let to_act = if turns.is_empty() { 0 } else { draw.pick(&turns) };

    let list = |of: fn(&Money) -> usize| -> Vec<f32> {
        money.iter().map(|seat| of(seat) as f32).collect()
    };
    let smallest = min_raise(draw, most) as f32;
    let mut data = RoundData::new_with_bets(smallest, owing, to_act, list(|seat| seat.round_bet));
    data.starting_player_active = active;
    let builder = builder(list(|seat| seat.stack), draw.below(n), 2)
        .round(draw.pick(&[Round::Preflop, Round::Flop, Round::Turn, Round::River]))
        .player_bet(list(|seat| seat.hand_bet))
        .round_data(data);
    let mut state = builder.build().expect("whole chips are accepted");
    // The builder knows no folded seats and leaves a seat that is all in active.
    state.player_active = active;
    state
}

fn set_where(n: usize, mut is_in: impl FnMut(usize) -> bool) -> PlayerBitSet {
    let mut set = PlayerBitSet::default();
    for seat in 0..n {
        if is_in(seat) {
            set.enable(seat);
        }
    }
    set
}

/// The chips of one seat.
struct Money {
    stack: usize,
    hand_bet: usize,
    round_bet: usize,
}

impl Money {
    /// Little is bet yet most of the time, so that much play is left.
    fn draw(draw: &mut Draw, most: usize) -> Self {
        let chips = draw.within(1, most);
        let share = draw.pick(&[0, chips / 4, chips / 4, chips / 2, chips]);
        let hand_bet = draw.within(0, share);
        let round_bet = if draw.once_in(3) { hand_bet } else { draw.within(0, hand_bet) };
        Money { stack: chips - hand_bet, hand_bet, round_bet }
    }
}
