//! Sets of seats.

use lists::carry::{bits_of, set_of};
use lists::draw::Draw;
use lists::refusals::{BAD_SEAT, INVALID_PLAYER_COUNT};
use lists::table::MAX_SEATS;
use peatcloak::sys;
use rs_poker::core::PlayerBitSet;

use crate::difference::Difference;
use crate::tally::{Kind, Tally};

/// A refusal stands above the set.
const ABOVE: u32 = 1 << 16;

/// `new`, then every set with every seat and some that are none.
pub fn every(tally: &mut Tally) -> Result<(), Box<Difference>> {
    for players in (0..=40).chain([255, 256, 65_535, 65_536, u32::MAX]) {
        let expected = if players as usize > MAX_SEATS {
            INVALID_PLAYER_COUNT * ABOVE
        } else {
            bits_of(PlayerBitSet::new(players as usize)).into()
        };
        is(sys::peatcloak_seats_new(players), expected, || format!("new of {players}"))?;
        tally.count(Kind::Sets, expected / ABOVE);
    }
    (0..=u16::MAX).try_for_each(|bits| one(bits, tally))
}

fn one(bits: u16, tally: &mut Tally) -> Result<(), Box<Difference>> {
    let set = set_of(bits);
    let count = set.count() as u32;
    is(sys::peatcloak_seats_count(bits), count, || format!("count of {bits}"))?;
    is(sys::peatcloak_seats_empty(bits), set.empty().into(), || format!("empty of {bits}"))?;
    for idx in 0..MAX_SEATS {
        let (mut with, mut without) = (set, set);
        with.enable(idx);
        without.disable(idx);
        let first = set.ones().find(|&seat| seat >= idx).unwrap_or(MAX_SEATS);
        let asked = |call: &str| format!("{call} of {bits}, seat {idx}");
        let seat = idx as u32;
        is(sys::peatcloak_seats_enable(bits, seat), bits_of(with).into(), || asked("enable"))?;
        is(sys::peatcloak_seats_disable(bits, seat), bits_of(without).into(), || asked("disable"))?;
        is(sys::peatcloak_seats_get(bits, seat), set.get(idx).into(), || asked("get"))?;
        is(sys::peatcloak_seats_next(bits, seat), first as u32, || asked("ones"))?;
    }
    tally.count_many(Kind::Sets, 2 + 4 * MAX_SEATS as u64);
    // The Rust's shift overflows from index 16 on.
    for idx in [16, 17, 31, 32, 33, 255, 256, 65_536, u32::MAX] {
        let asked = |call: &str| format!("{call} of {bits}, seat {idx}");
        let kept = u32::from(bits) + BAD_SEAT * ABOVE;
        is(sys::peatcloak_seats_enable(bits, idx), kept, || asked("enable"))?;
        is(sys::peatcloak_seats_disable(bits, idx), kept, || asked("disable"))?;
        is(sys::peatcloak_seats_get(bits, idx), BAD_SEAT * ABOVE, || asked("get"))?;
        is(sys::peatcloak_seats_next(bits, idx), MAX_SEATS as u32, || asked("ones"))?;
        tally.count_many(Kind::Sets, 1);
        (0..3).for_each(|_| tally.count(Kind::Sets, BAD_SEAT));
    }
    Ok(())
}

/// Two sets joined and met.
pub fn pair(draw: &mut Draw, tally: &mut Tally) -> Result<(), Box<Difference>> {
    let (a, b) = (draw.bits() as u16, draw.bits() as u16);
    let (either, both) = (bits_of(set_of(a) | set_of(b)), bits_of(set_of(a) & set_of(b)));
    is(sys::peatcloak_seats_or(a, b).into(), either.into(), || format!("{a} | {b}"))?;
    is(sys::peatcloak_seats_and(a, b).into(), both.into(), || format!("{a} & {b}"))?;
    tally.count_many(Kind::Sets, 2);
    Ok(())
}

fn is(ours: u32, theirs: u32, asked: impl Fn() -> String) -> Result<(), Box<Difference>> {
    if ours == theirs {
        return Ok(());
    }
    Err(Difference::new(format!("set: {}\nours  {ours}\nRust  {theirs}\n", asked())))
}
