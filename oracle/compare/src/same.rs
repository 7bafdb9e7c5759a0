//! Whether both sides have the same: two zeros are equal, and so are two NaNs.

use lists::carry::bits_of;
use lists::places::NUMBERS;
use lists::table::{MAX_BOARD, MAX_SEATS, SEAT_LISTS, Table, WORDS, place};
use rs_poker::arena::{GameState, RoundData};

pub fn float(a: f32, b: f32) -> bool {
    (a == b) | (a.is_nan() & b.is_nan())
}

/// Every word of two tables but those named.
pub fn tables(a: &Table, b: &Table, but: &[usize]) -> bool {
    (0..WORDS).filter(|at| !but.contains(at)).all(|at| word(a, b, at))
}

/// One word of two tables; the floats stand behind the numbers.
pub fn word(a: &Table, b: &Table, at: usize) -> bool {
    let is_float = at >= NUMBERS;
    a.words[at] == b.words[at] || is_float && float(a.float(at), b.float(at))
}

/// A list of ours against one of the Rust's.
fn list(table: &Table, place: usize, theirs: &[f32]) -> bool {
    let ours = &table.words[place..place + theirs.len()];
    ours.iter().zip(theirs).fold(true, |same, (&a, &b)| same & float(f32::from_bits(a), b))
}

/// The Rust's record, field by field, in the table's words. Its lists have `num_players` places.
pub fn record(table: &Table, state: &GameState) -> bool {
    let n = state.num_players;
    let cap = state.max_raises_per_round;
    let numbers = (table.get(place::NUM_PLAYERS) == n)
        & (table.get(place::DEALER_IDX) == state.dealer_idx)
        & (table.get(place::ROUND) == state.round as usize)
        & (table.get(place::ROUND_BEFORE) == state.round_before as usize)
        & (table.words[place::PLAYER_ACTIVE] == bits_of(state.player_active).into())
        & (table.words[place::PLAYER_ALL_IN] == bits_of(state.player_all_in).into())
        & (table.words[place::BB_POSTED] == state.bb_posted.into())
        & (table.words[place::SB_POSTED] == state.sb_posted.into())
        & (table.words[place::HAS_CAP] == cap.is_some().into())
        & cap.is_none_or(|cap| table.words[place::CAP] == cap.into())
        & (table.get(place::BOARD_LENGTH) == state.board.len());
    let cards = || {
        let mut cards = state.board.iter().enumerate();
        cards.all(|(at, &card)| table.words[place::BOARD + at] == u8::from(card).into())
    };
    numbers
        && cards()
        && float(table.float(place::TOTAL_POT), state.total_pot)
        && float(table.float(place::BIG_BLIND), state.big_blind)
        && float(table.float(place::SMALL_BLIND), state.small_blind)
        && float(table.float(place::ANTE), state.ante)
        && list(table, place::STACKS, &state.stacks)
        && list(table, place::STARTING_STACKS, &state.starting_stacks)
        && list(table, place::HAND_BETS, &state.player_bet)
        && list(table, place::WINNINGS, &state.player_winnings)
        && round_data(table, &state.round_data)
}

/// The Rust's round data in the table's words; it has at most 16 bets.
pub fn round_data(table: &Table, data: &RoundData) -> bool {
    let numbers = (table.words[place::STARTING_PLAYER_ACTIVE]
        == bits_of(data.starting_player_active).into())
        & (table.words[place::NEEDS_ACTION] == bits_of(data.needs_action).into())
        & (table.get(place::TO_ACT_IDX) == data.to_act_idx)
        & (table.get(place::ROUND_LENGTH) == data.player_bet.len())
        & (table.words[place::TOTAL_BET_COUNT] == data.total_bet_count.into())
        & (table.words[place::TOTAL_RAISE_COUNT] == data.total_raise_count.into())
        & (table.words[place::FORCED_BET_COUNT] == data.forced_bet_count.into());
    numbers
        && float(table.float(place::ROUND_BET), data.bet)
        && float(table.float(place::MIN_RAISE), data.min_raise)
        && list(table, place::ROUND_BETS, &data.player_bet)
}

/// The places that only our side has, which no step writes: bit for bit as before it.
pub fn untouched(before: &Table, after: &Table) -> bool {
    let n = before.get(place::NUM_PLAYERS);
    let kept = |from: usize, to: usize| before.words[from..to] == after.words[from..to];
    let lists = SEAT_LISTS.into_iter().chain([place::ROUND_BETS]);
    let board = place::BOARD + before.get(place::BOARD_LENGTH);
    let mut tails = lists.map(|list| kept(list + n, list + MAX_SEATS));
    tails.all(|same| same)
        && kept(board, place::BOARD + MAX_BOARD)
        && before.words[place::CAP] == after.words[place::CAP]
        && kept(place::ADDED, NUMBERS)
        && kept(place::PAID + 1, place::STACKS)
}

/// A table laid over another: the words that are no table's stay.
pub fn laid_over(mut table: Table, before: &Table) -> Table {
    for range in [place::FREE..NUMBERS, place::PAID + 1..place::STACKS] {
        table.words[range.clone()].copy_from_slice(&before.words[range]);
    }
    table
}

#[cfg(test)]
mod tests {
    use lists::carry;
    use lists::draw::Draw;
    use lists::table::{Table, WORDS, place};

    use super::{record, untouched};

    /// A bit of any word but the two answers, which are compared by themselves, is seen.
    #[test]
    fn every_word_is_looked_at() {
        let mut draw = Draw::new(1);
        for _ in 0..200 {
            let before: Table = lists::tables::half_played(&mut draw);
            let state = carry::game_state(&before);
            assert!(record(&before, &state) && untouched(&before, &before));
            for at in (0..WORDS).filter(|at| ![place::PAID, place::PASSED].contains(at)) {
                let mut after = before.clone();
                after.words[at] ^= 1;
                assert!(!record(&after, &state) || !untouched(&before, &after), "word {at}");
            }
        }
    }
}
