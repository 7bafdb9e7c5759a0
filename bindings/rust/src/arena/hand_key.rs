//! Which hand a table is at (added).

/// Table code, year and hand number. Hand numbers restart each January, so the year is part of the key.
///
/// Keys are ordered by code, then by year, then by hand. Year 0 means no key: then the other two are 0 too, and a
/// table is not built with any other.
#[derive(Clone, Copy, Debug, Default, PartialEq, Eq, PartialOrd, Ord, Hash)]
pub struct HandKey {
    /// The table's code.
    pub code: u16,
    /// The year, 0 for no key.
    pub year: u16,
    /// The hand's number in that year.
    pub hand: u32,
}

impl HandKey {
    /// No key.
    pub const NONE: HandKey = HandKey { code: 0, year: 0, hand: 0 };
}
