//! The kind `rounds`: round data alone, made or loaded and then used.

use std::io;

use crate::draw::Draw;
use crate::line::Line;
use crate::list::List;
use crate::round::{self, Asked};
use crate::table::{MAX_SEATS, Table, place};
use crate::{amounts, bits, differences, hands};

pub fn write(list: &mut List, draw: &mut Draw, count: u64) -> io::Result<()> {
    for mut table in hands::walks() {
        list.put(round::loading(&table))?;
        list.put(Asked::Walk.of(&mut table))?;
    }
    list.put_all(differences::rounds())?;
    for _ in 0..count {
        sequence(list, draw)?;
    }
    Ok(())
}

fn sequence(list: &mut List, draw: &mut Draw) -> io::Result<()> {
    let mut table = if draw.once_in(3) {
        let table = loaded(draw);
        list.put(round::loading(&table))?;
        table
    } else {
        let (line, made) = make(draw);
        list.put(line)?;
        match made {
            Some(table) => table,
            None => return Ok(()),
        }
    };
    for _ in 0..draw.within(1, 12) {
        let asked = match draw.below(20) {
            0..=6 => Asked::Walk,
            7..=15 => Asked::Bet(extra(draw, &table), draw.once_in(3)),
            _ => Asked::Queries,
        };
        list.put(asked.of(&mut table))?;
    }
    Ok(())
}

/// `new` or `new_with_bets`, one in five with something that 01 refuses.
fn make(draw: &mut Draw) -> (Line, Option<Table>) {
    let mut length = length(draw);
    let mut active = draw.seats(length);
    let mut to_act = draw.below(length);
    let min_raise = amounts::any(draw);
    if draw.once_in(5) {
        match draw.below(3) {
            0 => length = draw.pick(&[0, 17, 18, 19, 20]),
            1 => to_act = length + draw.below(4),
            _ => active |= outside(draw, length),
        }
    }
    if draw.once_in(2) {
        round::new(length, min_raise, active, to_act)
    } else {
        let bets = (0..length).map(|_| amounts::any(draw)).collect();
        round::new_with_bets(min_raise, active, to_act, bets)
    }
}

/// One bet alone is good too.
pub fn length(draw: &mut Draw) -> usize {
    if draw.once_in(12) { 1 } else { draw.players() }
}

/// A seat at or above the length; none is left above 16, so seat 15 then.
pub fn outside(draw: &mut Draw, length: usize) -> u16 {
    1 << draw.within(length.min(MAX_SEATS - 1), MAX_SEATS - 1)
}

/// Round data that no call makes. The seats active at its start are never looked
/// at, so they may stand anywhere.
pub fn loaded(draw: &mut Draw) -> Table {
    let length = length(draw);
    let mut table = Table::ZEROS;
    table.set(place::ROUND_LENGTH, length);
    table.set(place::TO_ACT_IDX, draw.below(length));
    table.set(place::STARTING_PLAYER_ACTIVE, draw.seats(MAX_SEATS) as usize);
    let owing = if draw.once_in(4) { 0 } else { draw.seats(length) };
    table.set(place::NEEDS_ACTION, owing as usize);
    for counter in place::TOTAL_BET_COUNT..=place::FORCED_BET_COUNT {
        let count = if draw.once_in(2) { draw.within(251, 255) } else { draw.below(8) };
        table.set(counter, count);
    }
    table.set_float(place::ROUND_BET, amounts::any(draw));
    table.set_float(place::MIN_RAISE, amounts::any(draw));
    for seat in 0..length {
        table.set_float(place::ROUND_BETS + seat, amounts::any(draw));
    }
    if draw.once_in(4) {
        spoil(draw, &mut table, length);
    }
    table
}

/// Makes round data unsound. With an owing seat outside and none inside, the
/// Rust's walk would not end.
fn spoil(draw: &mut Draw, table: &mut Table, length: usize) {
    let outside = outside(draw, length) as usize;
    match draw.below(4) {
        0 => table.set(place::TO_ACT_IDX, length + draw.below(5)),
        1 if length < MAX_SEATS => table.set(place::NEEDS_ACTION, outside),
        2 if length < MAX_SEATS => {
            table.set(place::NEEDS_ACTION, table.get(place::NEEDS_ACTION) | outside);
        }
        _ => table.set(place::ROUND_LENGTH, draw.pick(&[0, 0, 17, 18, 20, 255])),
    }
    table.clear_tails();
}

/// What a bet adds: up to the bet, a raise above it, or anything.
pub fn extra(draw: &mut Draw, table: &Table) -> f32 {
    let seat = table.get(place::TO_ACT_IDX).min(MAX_SEATS - 1);
    let short = table.float(place::ROUND_BET) - table.float(place::ROUND_BETS + seat);
    let extra = match draw.below(6) {
        0 => short,
        1 => amounts::beside(draw, short),
        2 => short + table.float(place::MIN_RAISE),
        3 => amounts::whole(draw, 50),
        _ => amounts::any(draw),
    };
    bits::one_nan(extra)
}
