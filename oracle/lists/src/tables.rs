//! Draws sound tables for the kind `steps`: built, half-played and strange ones.

use crate::amounts;
use crate::builder::Builder;
use crate::builders;
use crate::draw::Draw;
use crate::table::{MAX_BOARD, SEAT_LISTS, SETS, Table, first_seats, place};

/// The places of floats that a record of n seats uses.
fn float_places(n: usize) -> impl Iterator<Item = usize> {
    let single = place::TOTAL_POT..=place::MIN_RAISE;
    let lists = SEAT_LISTS.into_iter().chain([place::ROUND_BETS]);
    single.chain(lists.flat_map(move |list| list..list + n))
}

/// Any builder's table, as it comes.
pub fn built(draw: &mut Draw) -> Table {
    builders::good(draw).build().expect("a good builder is accepted")
}

/// A new game in whole chips, to be played from its start.
pub fn new_game(draw: &mut Draw) -> Table {
    let n = draw.players();
    let most = draw.pick(&[60, 200, 1000, 8000]);
    let big_blind = draw.pick(&[1.0, 2.0, 10.0, 25.0]);
    let builder = Builder {
        stacks: Some((0..n).map(|_| 1.0 + amounts::whole(draw, most)).collect()),
        big_blind: Some(big_blind),
        ante: draw.pick(&[None, Some(1.0), Some(5.0)]),
        dealer_idx: Some(draw.below(n)),
        cap: draw.pick(&[None, Some(None), Some(Some(2))]),
        ..Builder::default()
    };
    builder.build().expect("whole chips are accepted")
}

/// A table in the middle of a hand. Pot, bets and sets fit each other; the size
/// of the amounts goes up to where a tolerance is more than a chip.
pub fn half_played(draw: &mut Draw) -> Table {
    let n = draw.players();
    let mut table = Table::ZEROS;
    table.set(place::NUM_PLAYERS, n);
    table.set(place::ROUND_LENGTH, n);
    table.set(place::DEALER_IDX, draw.below(n));
    let most = draw.pick(&[20, 200, 200, 1000, 8000, 20_000, 1 << 24]);
    put_money(draw, &mut table, n, most);
    put_sets(draw, &mut table, n);
    put_round(draw, &mut table);
    if draw.once_in(5) {
        let unit = draw.pick(&[0.1, 0.25, 0.01]);
        for at in float_places(n) {
            table.set_float(at, table.float(at) * unit);
        }
    }
    table
}

/// Whole amounts: about half the seats have called the bet.
fn put_money(draw: &mut Draw, table: &mut Table, n: usize, most: usize) {
    let bet = draw.within(0, most / 4);
    let leader = draw.below(n);
    let mut pot = 0.0;
    for seat in 0..n {
        let called = seat == leader || draw.once_in(2);
        let round_bet = if called { bet as f32 } else { amounts::whole(draw, bet) };
        let earlier = if draw.once_in(2) { 0.0 } else { amounts::whole(draw, most / 4) };
        let stack = match draw.below(8) {
            0 => 0.0,
            1 => amounts::whole(draw, bet + 1),
            _ => 1.0 + amounts::whole(draw, most),
        };
        table.set_float(place::STACKS + seat, stack);
        table.set_float(place::STARTING_STACKS + seat, stack + round_bet + earlier);
        table.set_float(place::HAND_BETS + seat, round_bet + earlier);
        table.set_float(place::ROUND_BETS + seat, round_bet);
        pot += round_bet + earlier;
    }
    let big_blind = 1.0 + amounts::whole(draw, most / 10);
    table.set_float(place::TOTAL_POT, pot);
    table.set_float(place::BIG_BLIND, big_blind);
    table.set_float(place::SMALL_BLIND, big_blind / 2.0);
    table.set_float(place::ANTE, draw.pick(&[0.0, 0.0, 1.0, 5.0]));
    table.set_float(place::ROUND_BET, bet as f32);
    table.set_float(place::MIN_RAISE, big_blind + amounts::whole(draw, most / 10));
}

/// Seats with chips are active unless they folded; some of those owe.
fn put_sets(draw: &mut Draw, table: &mut Table, n: usize) {
    let holding = |table: &Table, list: usize| -> u16 {
        let held = table.floats(list, n).enumerate().filter(|&(_, x)| x > 0.0);
        held.fold(0, |seats, (seat, _)| seats | 1 << seat)
    };
    let chips = holding(table, place::STACKS);
    let folded = draw.seats(n) & draw.seats(n) & draw.seats(n);
    let active = chips & !folded;
    let owing = active & (draw.seats(n) | draw.seats(n));
    table.set(place::PLAYER_ACTIVE, active as usize);
    table.set(place::PLAYER_ALL_IN, (holding(table, place::HAND_BETS) & !chips) as usize);
    table.set(place::STARTING_PLAYER_ACTIVE, first_seats(n) as usize);
    table.set(place::NEEDS_ACTION, owing as usize);
    let turns: Vec<usize> = (0..n).filter(|seat| owing >> seat & 1 == 1).collect();
    let to_act = if turns.is_empty() { draw.below(n) } else { draw.pick(&turns) };
    table.set(place::TO_ACT_IDX, to_act);
}

/// The round, its counters and flags, the cap and the board.
pub fn put_round(draw: &mut Draw, table: &mut Table) {
    let round = draw.below(12);
    table.set(place::ROUND, round);
    table.set(place::ROUND_BEFORE, draw.pick(&[round, round.saturating_sub(1)]));
    for counter in place::TOTAL_BET_COUNT..=place::FORCED_BET_COUNT {
        table.set(counter, draw.below(6));
    }
    table.set(place::BB_POSTED, draw.below(2));
    table.set(place::SB_POSTED, draw.below(2));
    if draw.once_in(2) {
        table.set(place::HAS_CAP, 1);
        table.set(place::CAP, draw.pick(&[0, 1, 3, 3, 4, 255]));
    }
    // A board of one or two cards and a doubled card are sound.
    let length = draw.within(0, MAX_BOARD);
    table.set(place::BOARD_LENGTH, length);
    for offset in 0..length {
        table.set(place::BOARD + offset, draw.below(52));
    }
}

/// A sound table that no play reaches: some things of a half-played one changed.
pub fn strange(draw: &mut Draw) -> Table {
    let mut table = half_played(draw);
    let n = table.get(place::NUM_PLAYERS);
    if draw.once_in(8) {
        for at in float_places(n) {
            table.set_float(at, amounts::any(draw));
        }
    }
    for _ in 0..draw.within(1, 3) {
        twist(draw, &mut table, n);
    }
    table
}

fn twist(draw: &mut Draw, table: &mut Table, n: usize) {
    let seat = table.get(place::TO_ACT_IDX);
    match draw.below(8) {
        0 => table.set(place::TO_ACT_IDX, draw.below(n)),
        1 => table.set(draw.pick(&SETS), draw.seats(n) as usize),
        2 => {
            for set in SETS {
                table.set(set, draw.seats(n) as usize);
            }
        }
        3..=4 => {
            for counter in place::TOTAL_BET_COUNT..=place::FORCED_BET_COUNT {
                if draw.once_in(2) {
                    table.set(counter, draw.within(252, 255));
                }
            }
        }
        5 => {
            let places: Vec<usize> = float_places(n).collect();
            table.set_float(draw.pick(&places), amounts::any(draw));
        }
        // Where the stack's own line of being spent lies: EPSILON.
        6 => {
            let line = draw.pick(&[f32::EPSILON, 2.0 * f32::EPSILON, 0.0001, 1.0]);
            table.set_float(place::STACKS + seat, amounts::beside(draw, line));
        }
        // What the seat to act meets in a bet.
        _ => {
            let own = [place::STACKS + seat, place::ROUND_BETS + seat];
            let all = [own[0], own[1], place::ROUND_BET, place::MIN_RAISE];
            table.set_float(draw.pick(&all), amounts::any(draw));
        }
    }
}
