//! The walk of document 01 with its count, which the Rust does not tell: move one seat on, round the
//! table, until a seat owes; if none owes, stop after one move.

use crate::table::{Table, place};

/// How many seats the walks that left this table passed to in all. They began at a seat, one went on
/// where another ended, and the last must end where the Rust's ended.
pub fn passed(after: &Table, from: usize, walks: usize) -> usize {
    let n = after.get(place::ROUND_LENGTH);
    let owing = after.seats(place::NEEDS_ACTION);
    let all = (0..walks).fold(0, |moved, _| moved + distance(owing, n, (from + moved) % n));
    assert_eq!((from + all) % n, after.get(place::TO_ACT_IDX), "the Rust's walk ended elsewhere");
    all
}

/// How far one walk moves: n where it comes back to its start.
fn distance(owing: u16, n: usize, from: usize) -> usize {
    (1..=n).find(|moved| owing >> ((from + moved) % n) & 1 == 1).unwrap_or(1)
}

#[cfg(test)]
mod tests {
    use super::distance;

    #[test]
    fn a_walk_goes_to_the_next_seat_that_owes() {
        assert_eq!(distance(0b1011, 4, 0), 1);
        assert_eq!(distance(0b1001, 4, 0), 3);
        assert_eq!(distance(0b1001, 4, 3), 1);
    }

    #[test]
    fn the_start_comes_last_and_with_nobody_owing_it_is_one_move() {
        assert_eq!(distance(1 << 5, 6, 5), 6);
        assert_eq!(distance(0, 6, 5), 1);
        assert_eq!(distance(1, 1, 0), 1);
    }
}
