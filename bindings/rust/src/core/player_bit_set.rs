//! A set of seats.

use std::fmt;
use std::ops::{BitAnd, BitOr};

use crate::arena::errors::PlayerBitSetError;
use crate::sys;
use crate::words::{MAX_PLAYERS, seat};

/// A set of up to 16 seats.
#[derive(Clone, Copy, Default, PartialEq, Eq, Hash)]
pub struct PlayerBitSet {
    set: u16,
}

/// A set or a flag below, a refusal above.
fn answer(word: u32) -> Result<u16, PlayerBitSetError> {
    match word >> 16 {
        0 => Ok(word as u16),
        refused => Err(PlayerBitSetError::of(refused)),
    }
}

impl PlayerBitSet {
    /// The first seats; refused above 16.
    pub fn new(players: usize) -> Result<Self, PlayerBitSetError> {
        answer(sys::peatcloak_seats_new(seat(players))).map(Self::from_bits)
    }

    /// The set of these bits: any 16 bits are a set.
    pub fn from_bits(set: u16) -> Self {
        PlayerBitSet { set }
    }

    /// Its bits, seat 0 the lowest.
    pub fn bits(self) -> u16 {
        self.set
    }

    /// How many seats are in it.
    pub fn count(&self) -> usize {
        sys::peatcloak_seats_count(self.set) as usize
    }

    /// Whether nobody is in it.
    pub fn empty(&self) -> bool {
        sys::peatcloak_seats_empty(self.set) != 0
    }

    /// Puts a seat in; refused above 15.
    pub fn enable(&mut self, idx: usize) -> Result<(), PlayerBitSetError> {
        self.set = answer(sys::peatcloak_seats_enable(self.set, seat(idx)))?;
        Ok(())
    }

    /// Takes a seat out; refused above 15.
    pub fn disable(&mut self, idx: usize) -> Result<(), PlayerBitSetError> {
        self.set = answer(sys::peatcloak_seats_disable(self.set, seat(idx)))?;
        Ok(())
    }

    /// Whether a seat is in it; refused above 15.
    pub fn get(&self, idx: usize) -> Result<bool, PlayerBitSetError> {
        answer(sys::peatcloak_seats_get(self.set, seat(idx))).map(|is| is != 0)
    }

    /// Its seats from the lowest on.
    pub fn ones(self) -> ActivePlayerBitSetIter {
        ActivePlayerBitSetIter { set: self.set, from: 0 }
    }
}

impl BitOr for PlayerBitSet {
    type Output = PlayerBitSet;

    fn bitor(self, rhs: Self) -> Self {
        Self::from_bits(sys::peatcloak_seats_or(self.set, rhs.set))
    }
}

impl BitAnd for PlayerBitSet {
    type Output = PlayerBitSet;

    fn bitand(self, rhs: Self) -> Self {
        Self::from_bits(sys::peatcloak_seats_and(self.set, rhs.set))
    }
}

impl fmt::Debug for PlayerBitSet {
    fn fmt(&self, f: &mut fmt::Formatter<'_>) -> fmt::Result {
        write!(f, "PlayerBitSet{self}")
    }
}

/// `A` for each seat in it and `_` for each other, as rs_poker shows it.
impl fmt::Display for PlayerBitSet {
    fn fmt(&self, f: &mut fmt::Formatter<'_>) -> fmt::Result {
        let seats = (0..MAX_PLAYERS).map(|idx| if self.set >> idx & 1 == 1 { 'A' } else { '_' });
        write!(f, "[{}]", seats.collect::<String>())
    }
}

/// The seats of a set.
pub struct ActivePlayerBitSetIter {
    set: u16,
    from: u32,
}

impl Iterator for ActivePlayerBitSetIter {
    type Item = usize;

    fn next(&mut self) -> Option<usize> {
        let idx = sys::peatcloak_seats_next(self.set, self.from) as usize;
        self.from = seat(idx + 1);
        (idx < MAX_PLAYERS).then_some(idx)
    }
}
