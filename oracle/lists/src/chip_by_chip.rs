//! Settlement by hand, one chip at a time: a second method to hold the layers' formulae against.
//!
//! Each seat's bet is a pile, and the table is cleared from the felt upward: first every pile's
//! lowest chip, then every pile's second, and so on. The chips of one height are dealt, one each and
//! round and round, to the seats that may win there. Each chip goes to the first such seat after the
//! one that took the last chip; the first chip goes to the first such seat after the dealer. This
//! begins again when the height passes a contender's whole pile, since the seats that may win are
//! others from there on. No chip is counted, no amount is divided, and no layer is measured.

/// What each seat gets. The dealer is one of the seats; with no contender nobody gets a chip.
pub fn awards(bets: &[u32], contends: &[bool], ranks: &[u16], dealer: usize) -> Vec<u32> {
    let mut awarded = vec![0; bets.len()];
    let mut took_the_last = dealer;
    let mut last_mark = None;
    for height in 1..=bets.iter().copied().max().unwrap_or(0) {
        let mark = mark_at(height, bets, contends);
        if last_mark != Some(mark) {
            took_the_last = dealer;
            last_mark = Some(mark);
        }
        let takers = takers(mark, bets, contends, ranks);
        for _chip in bets.iter().filter(|&&pile| pile >= height) {
            if let Some(seat) = after(took_the_last, bets.len()).find(|seat| takers[*seat]) {
                awarded[seat] += 1;
                took_the_last = seat;
            }
        }
    }
    awarded
}

/// The contender's pile that a chip at this height lies in or under: the lowest one that is high
/// enough, and the highest of all where none is.
fn mark_at(height: u32, bets: &[u32], contends: &[bool]) -> u32 {
    let mut piles: Vec<u32> = (0..bets.len()).filter(|&i| contends[i]).map(|i| bets[i]).collect();
    piles.sort_unstable();
    let high_enough = piles.iter().copied().find(|&pile| pile >= height);
    high_enough.or(piles.last().copied()).unwrap_or(0)
}

/// The seats that a chip may go to: contenders whose pile comes up to the mark, unless another one
/// of them has a better rank.
fn takers(mark: u32, bets: &[u32], contends: &[bool], ranks: &[u16]) -> Vec<bool> {
    let in_it = |i: usize| contends[i] && bets[i] >= mark;
    (0..bets.len())
        .map(|i| in_it(i) && (0..bets.len()).all(|j| !in_it(j) || ranks[j] <= ranks[i]))
        .collect()
}

/// The seats of a table of n in order after a seat, which itself comes last.
fn after(seat: usize, n: usize) -> impl Iterator<Item = usize> {
    (seat + 1..n).chain(0..=seat)
}

#[cfg(test)]
mod tests {
    use super::awards;

    /// All seats contend but those named as folded.
    fn dealt(dealer: usize, bets: &[u32], folded: &[usize], ranks: &[u16]) -> Vec<u32> {
        let contends: Vec<bool> = (0..bets.len()).map(|i| !folded.contains(&i)).collect();
        awards(bets, &contends, ranks, dealer)
    }

    #[test]
    fn a_short_stack_wins_the_main_pot() {
        assert_eq!(dealt(0, &[10, 30, 30], &[], &[9, 5, 5]), [30, 20, 20]);
    }

    #[test]
    fn the_odd_chip_goes_to_the_first_winner_after_the_dealer() {
        assert_eq!(dealt(0, &[5, 5, 5], &[0], &[4, 4, 4]), [0, 8, 7]);
        assert_eq!(dealt(1, &[5, 5, 5], &[0], &[4, 4, 4]), [0, 7, 8]);
        assert_eq!(dealt(2, &[5, 5, 5], &[0], &[4, 4, 4]), [0, 8, 7]);
    }

    #[test]
    fn the_dealer_comes_last() {
        assert_eq!(dealt(0, &[1, 1, 1], &[2], &[4, 4, 4]), [1, 2, 0]);
        assert_eq!(dealt(1, &[1, 1, 1], &[2], &[4, 4, 4]), [2, 1, 0]);
    }

    #[test]
    fn odd_chips_are_dealt_layer_by_layer() {
        assert_eq!(dealt(0, &[6, 5, 8, 8], &[0], &[3, 3, 3, 3]), [0, 7, 11, 9]);
        assert_eq!(dealt(1, &[6, 5, 8, 8], &[0], &[3, 3, 3, 3]), [0, 6, 11, 10]);
        assert_eq!(dealt(2, &[6, 5, 8, 8], &[0], &[3, 3, 3, 3]), [0, 7, 9, 11]);
    }

    #[test]
    fn a_contender_with_no_bet_wins_nothing_beside_levels() {
        assert_eq!(dealt(0, &[0, 8, 8], &[], &[9, 1, 1]), [0, 8, 8]);
    }

    #[test]
    fn folded_chips_above_the_top_join_it() {
        assert_eq!(dealt(0, &[9, 4, 4], &[0], &[7, 1, 2]), [0, 0, 17]);
    }

    #[test]
    fn with_no_level_all_contenders_play_for_everything() {
        assert_eq!(dealt(0, &[7, 0, 0], &[0], &[9, 2, 2]), [0, 4, 3]);
    }

    #[test]
    fn nobody_left_gets_nothing() {
        assert_eq!(dealt(0, &[3, 4], &[0, 1], &[0, 0]), [0, 0]);
    }
}
