//! Round data alone.

use std::fmt::Write;

use lists::draw::Draw;
use lists::refusals::{BAD_RECORD, COUNTER_FULL};
use lists::rounds::{self, extra};
use lists::table::{MAX_SEATS, Table, place};
use lists::{amounts, carry, sound};
use rs_poker::arena::RoundData;

use crate::boundary;
use crate::difference::{Difference, shown};
use crate::same;
use crate::shrink;
use crate::tally::{Kind, Tally};
use crate::theirs::distance;

/// Made or loaded, and used.
pub fn sequence(draw: &mut Draw, tally: &mut Tally) -> Result<(), Box<Difference>> {
    let made = if draw.once_in(3) { Some(rounds::loaded(draw)) } else { make(draw, tally)? };
    let Some(mut table) = made else { return Ok(()) };
    for _ in 0..draw.within(1, 30) {
        let ask = match draw.below(20) {
            0..=6 => Ask::Walk,
            7..=15 => Ask::Bet(extra(draw, &table), draw.once_in(3)),
            _ => Ask::Queries,
        };
        let expected = expected(&table, &ask);
        tally.count(ask.kind(), expected.as_ref().err().copied().unwrap_or(0));
        if !is_same(&mut table, &ask, expected) {
            return Err(told(&table, &ask));
        }
    }
    Ok(())
}

/// `new` or `new_with_bets`, one in five with something that document 01 refuses.
fn make(draw: &mut Draw, tally: &mut Tally) -> Result<Option<Table>, Box<Difference>> {
    let mut length = rounds::length(draw);
    let mut active = draw.seats(length);
    let mut to_act = draw.below(length);
    let min_raise = amounts::any(draw);
    if draw.once_in(5) {
        match draw.below(3) {
            0 => length = draw.pick(&[0, 17, 18, 19, 20]),
            1 => to_act = length + draw.below(4),
            _ => active |= rounds::outside(draw, length),
        }
    }
    let bets: Option<Vec<f32>> =
        draw.once_in(2).then(|| (0..length).map(|_| amounts::any(draw)).collect());
    let before = if draw.once_in(2) { Table::ZEROS } else { any_words(draw) };
    let mut table = before.clone();
    let refused = match &bets {
        None => boundary::round_new(&mut table, length, min_raise, active, to_act),
        Some(bets) => boundary::round_new_with_bets(&mut table, min_raise, active, to_act, bets),
    };
    let fits = (1..=MAX_SEATS).contains(&length);
    let good = fits && to_act < length && sound::within(active, length);
    tally.count(Kind::RoundMade, if good { 0 } else { BAD_RECORD });
    let set = carry::set_of(active);
    let is_same = if !good {
        refused == BAD_RECORD && table.words == before.words
    } else {
        let data = match bets.clone() {
            None => RoundData::new(length, min_raise, set, to_act),
            Some(bets) => RoundData::new_with_bets(min_raise, set, to_act, bets),
        };
        let mut rest_before = before;
        rest_before.words[place::ROUND_BETS..place::ROUND_BETS + MAX_SEATS].fill(0);
        refused == 0 && same::round_data(&table, &data) && rest(&table, &rest_before, length)
    };
    if is_same {
        return Ok(good.then_some(table));
    }
    let asked = format!("round data of {length} seats, {active} active, {to_act} to act");
    let parts = format!("smallest raise {:08x}, bets {bets:?}", min_raise.to_bits());
    let told = format!("{asked}, {parts}\nours  refused {refused}, {}\n", shown(&table));
    Err(Difference::new(told))
}

/// What stands there is not looked at when round data is made; its list is written whole.
fn any_words(draw: &mut Draw) -> Table {
    Table { words: std::array::from_fn(|_| draw.bits() as u32) }
}

/// What is asked of round data.
enum Ask {
    Walk,
    Bet(f32, bool),
    Queries,
}

impl Ask {
    fn kind(&self) -> Kind {
        match self {
            Ask::Walk => Kind::RoundWalk,
            Ask::Bet(..) => Kind::RoundBet,
            Ask::Queries => Kind::RoundQueries,
        }
    }
}

/// The Rust's data after it; it is not asked where it would panic or walk for good.
fn expected(table: &Table, ask: &Ask) -> Result<RoundData, u32> {
    if !sound::round_data(table) {
        return Err(BAD_RECORD);
    }
    let mut data = carry::round_data(table);
    match *ask {
        Ask::Walk => data.advance_action(),
        Ask::Queries => (),
        Ask::Bet(amount, is_forced) => {
            let mut rehearsed = data.clone();
            sound::clear_counters(&mut rehearsed);
            rehearsed.do_bet(amount, is_forced);
            if sound::counter_full(data.clone(), rehearsed) {
                return Err(COUNTER_FULL);
            }
            data.do_bet(amount, is_forced);
        }
    }
    Ok(data)
}

/// Asks our side, in place, and compares.
fn is_same(table: &mut Table, ask: &Ask, expected: Result<RoundData, u32>) -> bool {
    let before = table.clone();
    let refused = match *ask {
        Ask::Queries => return same_queries(table, expected),
        Ask::Walk => boundary::round_advance_action(table),
        Ask::Bet(amount, is_forced) => boundary::round_do_bet(table, amount, is_forced),
    };
    let is_same = match &expected {
        Err(number) => refused == *number && table.words == before.words,
        Ok(data) => {
            let n = data.player_bet.len();
            let passed = match ask {
                Ask::Walk => distance(before.get(place::TO_ACT_IDX), data.to_act_idx, n),
                _ => table.get(place::PASSED),
            };
            refused == 0
                && table.get(place::PASSED) == passed
                && same::round_data(table, data)
                && rest(table, &before, n)
        }
    };
    if !is_same {
        *table = before;
    }
    is_same
}

/// The places that are not the round's, and those of its list from its length on, bit for bit.
fn rest(after: &Table, before: &Table, length: usize) -> bool {
    let round = place::STARTING_PLAYER_ACTIVE..=place::FORCED_BET_COUNT;
    let own = |at: &usize| {
        round.contains(at)
            || [place::PAID, place::PASSED, place::ROUND_BET, place::MIN_RAISE].contains(at)
            || (place::ROUND_BETS..place::ROUND_BETS + length).contains(at)
    };
    (0..after.words.len()).filter(|at| !own(at)).all(|at| after.words[at] == before.words[at])
}

/// Only current_player_bet refuses; the other two are told by the words on unsound data too.
fn same_queries(table: &Table, expected: Result<RoundData, u32>) -> bool {
    let (refused, bet, [need, unopened, bet_refused]) = boundary::round_queries(table);
    let owing = carry::set_of(table.seats(place::NEEDS_ACTION));
    let forced_only = table.get(place::TOTAL_BET_COUNT) == table.get(place::FORCED_BET_COUNT);
    let same_bet = match expected {
        Err(number) => bet_refused == number && bet == 0.0,
        Ok(data) => {
            bet_refused == 0
                && same::float(bet, data.current_player_bet())
                && owing.count() == data.num_players_need_action()
                && forced_only == data.is_action_unopened()
        }
    };
    refused == 0 && same_bet && need as usize == owing.count() && unopened == forced_only.into()
}

fn told(table: &Table, ask: &Ask) -> Box<Difference> {
    let differs = |table: &Table| !is_same(&mut table.clone(), ask, expected(table, ask));
    let table = shrink::smaller_table(table, differs);
    let mut told = format!("round data {}\n", shown(&table));
    let asked = match ask {
        Ask::Walk => "advance_action".to_string(),
        Ask::Bet(amount, is_forced) => {
            format!("do_bet of {amount} ({:08x}), forced {is_forced}", amount.to_bits())
        }
        Ask::Queries => "queries".to_string(),
    };
    let mut got = table.clone();
    let refused = match *ask {
        Ask::Walk => boundary::round_advance_action(&mut got),
        Ask::Bet(amount, is_forced) => boundary::round_do_bet(&mut got, amount, is_forced),
        Ask::Queries => 0,
    };
    let queries = boundary::round_queries(&table);
    writeln!(told, "{asked}\nours  refused {refused}, {}", shown(&got)).expect("text");
    writeln!(told, "ours, queries before it {queries:?}").expect("text");
    writeln!(told, "Rust  {:?}", expected(&table, ask)).expect("text");
    Difference::new(told)
}
