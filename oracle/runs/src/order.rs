//! Good order, as document 01 has it, and the chips that must stay.

use rs_poker::arena::GameState;
use rs_poker::arena::game_state::MAX_PLAYERS;
use rs_poker::core::PlayerBitSet;

pub const MOST_CHIPS: usize = 8000;

/// A whole amount of a table in good order, as a number that adds exactly.
pub fn chips(amount: f32) -> usize {
    amount as usize
}

/// Stacks and pot together.
pub fn all_chips(state: &GameState) -> usize {
    chips(state.total_pot) + state.stacks.iter().copied().map(chips).sum::<usize>()
}

/// What is out of order, or nothing. Where nobody owes, the seat to act is not
/// asked to owe; the rest is.
pub fn fault(state: &GameState) -> Option<&'static str> {
    if !is_sound(state) {
        return Some("not sound");
    }
    money_fault(state).or_else(|| seat_fault(state))
}

fn is_sound(state: &GameState) -> bool {
    let n = state.num_players;
    let data = &state.round_data;
    let within = |set: PlayerBitSet| (n..MAX_PLAYERS).all(|seat| !set.get(seat));
    let lists = [&state.stacks, &state.player_bet, &data.player_bet];
    (2..=MAX_PLAYERS).contains(&n)
        && lists.iter().all(|list| list.len() == n)
        && state.dealer_idx < n
        && data.to_act_idx < n
        && state.board.len() <= 5
        && within(state.player_active)
        && within(state.player_all_in)
        && within(data.starting_player_active)
        && within(data.needs_action)
}

fn is_whole(amount: f32) -> bool {
    amount >= 0.0 && amount <= MOST_CHIPS as f32 && amount.fract() == 0.0
}

fn money_fault(state: &GameState) -> Option<&'static str> {
    let data = &state.round_data;
    let single = [state.total_pot, data.bet, data.min_raise];
    let lists = state.stacks.iter().chain(&state.player_bet).chain(&data.player_bet);
    if !lists.chain(&single).all(|&amount| is_whole(amount)) {
        return Some("an amount is not whole or not in 0 to 8,000");
    }
    let hand_bets: usize = state.player_bet.iter().copied().map(chips).sum();
    let largest = data.player_bet.iter().copied().map(chips).max();
    let mut pairs = data.player_bet.iter().zip(&state.player_bet);
    if all_chips(state) > MOST_CHIPS {
        Some("stacks and pot above 8,000")
    } else if chips(state.total_pot) != hand_bets {
        Some("the pot is not the sum of the hand bets")
    } else if pairs.any(|(round_bet, hand_bet)| round_bet > hand_bet) {
        Some("a round bet is above its hand bet")
    } else if largest != Some(chips(data.bet)) {
        Some("the bet is not the largest round bet")
    } else if data.min_raise < 1.0 {
        Some("the smallest raise is below 1")
    } else {
        None
    }
}

fn seat_fault(state: &GameState) -> Option<&'static str> {
    let owing = state.round_data.needs_action;
    let mut seats = 0..state.num_players;
    if seats.clone().any(|seat| state.player_active.get(seat) && state.stacks[seat] < 1.0) {
        Some("an active seat holds no chip")
    } else if seats.any(|seat| owing.get(seat) && !state.player_active.get(seat)) {
        Some("a seat owes and is not active")
    } else if !owing.empty() && !owing.get(state.to_act_idx()) {
        Some("the seat to act does not owe")
    } else {
        None
    }
}
