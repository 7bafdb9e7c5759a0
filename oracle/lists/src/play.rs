//! Chooses steps: as a hand is played, or any step at any time.

use rs_poker::arena::Round;

use crate::amounts;
use crate::carry::ROUNDS;
use crate::draw::Draw;
use crate::step::Step;
use crate::table::{Table, place};
use crate::wagers;

const BETTING: [Round; 4] = [Round::Preflop, Round::Flop, Round::Turn, Round::River];

/// The next step of a hand, with a question or an odd bet now and then.
pub fn in_turn(draw: &mut Draw, table: &Table) -> Step {
    let round = ROUNDS[table.get(place::ROUND)];
    let forced = table.get(place::FORCED_BET_COUNT);
    if draw.once_in(20) {
        return Step::Query(draw.below(20));
    }
    let ante = table.float(place::ANTE);
    if round == Round::Ante && ante > 0.0 && forced < table.get(place::NUM_PLAYERS) {
        return Step::Forced(ante);
    }
    if is_over(table) {
        return at_the_end(draw, table);
    }
    let alone = table.seats(place::PLAYER_ACTIVE).count_ones() == 1;
    if !BETTING.contains(&round) || table.get(place::NEEDS_ACTION) == 0 || alone {
        return if alone || draw.once_in(20) { Step::Complete } else { Step::Advance };
    }
    if round == Round::Preflop && forced < 2 {
        let blind = [place::SMALL_BLIND, place::BIG_BLIND][forced];
        return Step::Forced(table.float(blind));
    }
    match draw.below(20) {
        0..=8 => Step::Call,
        9..=12 => Step::Bet(wagers::raise(draw, table)),
        13..=15 => Step::Fold,
        16 => Step::AllIn,
        _ => Step::Bet(wagers::voluntary(draw, table)),
    }
}

pub fn is_over(table: &Table) -> bool {
    ROUNDS[table.get(place::ROUND)] == Round::Complete
}

fn at_the_end(draw: &mut Draw, table: &Table) -> Step {
    let seat = draw.below(table.get(place::NUM_PLAYERS));
    match draw.below(6) {
        0..=1 => Step::Award(seat, table.float(place::TOTAL_POT)),
        2 => Step::Award(seat, amounts::whole(draw, 100)),
        3..=4 => Step::Reward(seat),
        // Neither moves a complete table.
        _ if draw.once_in(2) => Step::Advance,
        _ => Step::Complete,
    }
}

/// Any step, whoever's turn it is.
pub fn at_random(draw: &mut Draw, table: &Table) -> Step {
    match draw.below(100) {
        0..=39 => Step::Bet(wagers::voluntary(draw, table)),
        40..=52 => Step::Forced(wagers::forced(draw, table)),
        53..=60 => Step::Call,
        61..=65 => Step::AllIn,
        66..=73 => Step::Fold,
        74..=79 => Step::Advance,
        80..=81 => Step::Complete,
        82..=89 => {
            let seat = seat(draw, table);
            Step::Award(seat, amounts::any(draw))
        }
        90..=93 => Step::Reward(seat(draw, table)),
        _ => Step::Query(draw.below(20)),
    }
}

/// A seat of the table, or one time in four none.
fn seat(draw: &mut Draw, table: &Table) -> usize {
    let n = table.get(place::NUM_PLAYERS).max(1);
    if draw.once_in(4) { n + draw.below(20) } else { draw.below(n) }
}
