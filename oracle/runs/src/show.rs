//! A table in one line, for the report.

use rs_poker::arena::GameState;
use rs_poker::core::PlayerBitSet;

pub fn table(state: &GameState) -> String {
    let data = &state.round_data;
    format!(
        "{} seats, stacks {}, hand bets {}, round bets {}, pot {}, bet {}, \
         smallest raise {}, active {}, owing {}, seat {} to act",
        state.num_players,
        amounts(&state.stacks),
        amounts(&state.player_bet),
        amounts(&data.player_bet),
        state.total_pot,
        data.bet,
        data.min_raise,
        seats(state.player_active),
        seats(data.needs_action),
        data.to_act_idx,
    )
}

fn amounts(list: &[f32]) -> String {
    let words: Vec<String> = list.iter().map(f32::to_string).collect();
    words.join(" ")
}

fn seats(set: PlayerBitSet) -> String {
    let words: Vec<String> = set.ones().map(|seat| seat.to_string()).collect();
    words.join(" ")
}
