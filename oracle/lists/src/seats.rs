//! The kind `seats`: PlayerBitSet.

use std::io;

use rs_poker::core::PlayerBitSet;

use crate::carry::{bits_of, set_of};
use crate::draw::Draw;
use crate::line::Line;
use crate::list::List;
use crate::refusals::{BAD_SEAT, INVALID_PLAYER_COUNT};
use crate::table::MAX_SEATS;

/// There are this many sets; so many or more means each once.
pub const ALL: u64 = 1 << MAX_SEATS;

pub fn write(list: &mut List, draw: &mut Draw, count: u64) -> io::Result<()> {
    list.put(Line::new('z').answer().token(bits_of(PlayerBitSet::default())))?;
    for players in (0..=40).chain([255, 256, 65_535]) {
        list.put(new(players))?;
    }
    let sets = sets(draw, count);
    for &set in &sets {
        one_set(list, set)?;
    }
    for _ in &sets {
        pair(list, draw.bits() as u16, draw.bits() as u16)?;
    }
    Ok(())
}

fn sets(draw: &mut Draw, count: u64) -> Vec<u16> {
    if count >= ALL {
        return (0..=u16::MAX).collect();
    }
    let single = (0..MAX_SEATS).map(|seat| 1 << seat);
    let fixed = [0, u16::MAX].into_iter().chain(single);
    fixed.chain((0..count).map(|_| draw.bits() as u16)).collect()
}

/// The Rust's debug assertion panics above 16.
fn new(players: usize) -> Line {
    let line = Line::new('n').token(players);
    if players > MAX_SEATS {
        return line.refused(INVALID_PLAYER_COUNT);
    }
    line.answer().token(bits_of(PlayerBitSet::new(players)))
}

fn one_set(list: &mut List, bits: u16) -> io::Result<()> {
    let set = set_of(bits);
    list.put(Line::new('c').token(bits).answer().token(set.count()).flag(set.empty()))?;
    for index in 0..=MAX_SEATS {
        list.put(indexed('e', bits, index, |set, index| {
            set.enable(index);
            bits_of(*set)
        }))?;
        list.put(indexed('d', bits, index, |set, index| {
            set.disable(index);
            bits_of(*set)
        }))?;
        list.put(indexed('g', bits, index, |set, index| set.get(index) as u16))?;
    }
    for index in 0..=20 {
        let first = set.ones().find(|&seat| seat >= index).unwrap_or(MAX_SEATS);
        list.put(Line::new('i').token(bits).token(index).answer().token(first))?;
    }
    Ok(())
}

/// The Rust's shift overflows, and panics, from index 16 on.
fn indexed(
    letter: char,
    bits: u16,
    index: usize,
    call: fn(&mut PlayerBitSet, usize) -> u16,
) -> Line {
    let line = Line::new(letter).token(bits).token(index);
    if index >= MAX_SEATS {
        return line.refused(BAD_SEAT);
    }
    line.answer().token(call(&mut set_of(bits), index))
}

fn pair(list: &mut List, one: u16, other: u16) -> io::Result<()> {
    let either = bits_of(set_of(one) | set_of(other));
    let both = bits_of(set_of(one) & set_of(other));
    list.put(Line::new('o').token(one).token(other).answer().token(either))?;
    list.put(Line::new('a').token(one).token(other).answer().token(both))
}
