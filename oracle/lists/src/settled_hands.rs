//! The settlements that documents 01 and 02 and their readings tell in words, and
//! both sides of each refusal. They head the list `settlements`.

use crate::settlement::{self, MOST_CHIPS};
use crate::table::{Table, first_seats, place};

/// Each table with its ranks, in this order.
pub fn all() -> Vec<(Table, Vec<u16>)> {
    let mut hands = worked();
    let on_lines = refusals_in_order().into_iter().chain(at_both_sides());
    hands.extend(on_lines.map(|table| {
        let ranks = vec![4; settlement::rank_count(&table)];
        (table, ranks)
    }));
    hands.extend(by_dealer());
    hands
}

fn worked() -> Vec<(Table, Vec<u16>)> {
    vec![
        (hand(&[10, 30, 30], 0), vec![9, 5, 5]),
        (hand(&[5, 5, 5], 0b1), vec![4, 4, 4]),
        (hand(&[6, 5, 8, 8], 0b1), vec![3, 3, 3, 3]),
        (hand(&[0, 8, 8], 0), vec![9, 1, 1]),
        // A pot of 0: nothing is paid, so the second settlement is no 24.
        (hand(&[0, 0], 0), vec![1, 2]),
        // Folded chips above the top level, and no level at all.
        (hand(&[9, 4, 4], 0b1), vec![7, 1, 2]),
        (hand(&[7, 0, 0], 0b1), vec![9, 2, 2]),
        // Of two stacks of -0.0 the one without an award stays.
        (
            with(hand(&[8, 8], 0), &[(place::STACKS, -0.0), (place::STACKS + 1, -0.0)]),
            vec![0, 65535],
        ),
    ]
}

/// Odd chips of one layer and of two, with another dealer than seat 0; and 16
/// seats with the dealer last, and last but one.
fn by_dealer() -> Vec<(Table, Vec<u16>)> {
    let three_win = |seat| if [0, 3, 7, 15].contains(&seat) { 9 } else { 4 };
    let sixteen = hand(&[1, 1, 1, 2, 1, 1, 1, 1, 1, 1, 1, 1, 1, 1, 1, 1], 0b1000);
    let mut hands = vec![];
    for (hand, ranks, dealers) in [
        (hand(&[5, 5, 5], 0b1), vec![4; 3], 1..3),
        (hand(&[6, 5, 8, 8], 0b1), vec![3; 4], 1..4),
        (sixteen, (0..16).map(three_win).collect(), 14..16),
    ] {
        for dealer in dealers {
            let mut table = hand.clone();
            table.set(place::DEALER_IDX, dealer);
            hands.push((table, ranks.clone()));
        }
    }
    hands
}

/// Each of 19, 24, 23 and 22 with all those after it on the same table.
fn refusals_in_order() -> [Table; 4] {
    let nobody = hand(&[3, 5], 0b11);
    let broken = with(nobody.clone(), &[(place::STACKS + 1, 0.5)]);
    let paid = with(broken.clone(), &[(place::WINNINGS, 1.0)]);
    let mut unsound = paid.clone();
    unsound.set(place::DEALER_IDX, 2);
    [unsound, paid, broken, nobody]
}

/// What is refused beside what is not.
fn at_both_sides() -> Vec<Table> {
    // Seat 1 has 100 chips, and 8 are in the pot.
    let rest = MOST_CHIPS as f32 - 100.0 - 8.0;
    let amounts: [&[(usize, f32)]; 14] = [
        &[(place::WINNINGS + 1, -0.0)],
        &[(place::WINNINGS + 1, f32::from_bits(1))],
        &[(place::WINNINGS + 1, f32::NAN)],
        &[(place::STACKS, rest)],
        &[(place::STACKS, rest + 1.0)],
        &[(place::STARTING_STACKS, MOST_CHIPS as f32)],
        &[(place::STARTING_STACKS, MOST_CHIPS as f32 + 1.0)],
        &[(place::STARTING_STACKS, -0.0)],
        &[(place::STARTING_STACKS, -1.0)],
        &[(place::HAND_BETS, 4.0)],
        &[(place::HAND_BETS, 3.5), (place::HAND_BETS + 1, 4.5)],
        &[(place::TOTAL_POT, 7.0)],
        &[(place::TOTAL_POT, f32::NAN)],
        // A seat that is not there has no part in anything.
        &[(place::WINNINGS + 2, 1.0), (place::STACKS + 2, 0.5), (place::HAND_BETS + 2, 9.0)],
    ];
    amounts.iter().map(|changed| with(hand(&[3, 5], 0), changed)).collect()
}

fn with(mut table: Table, amounts: &[(usize, f32)]) -> Table {
    for &(at, amount) in amounts {
        table.set_float(at, amount);
    }
    table
}

/// A table at Showdown with these hand bets. Each seat has 100 chips left, and
/// those of a set have folded.
fn hand(bets: &[u16], folded: u16) -> Table {
    let n = bets.len();
    let mut table = Table::ZEROS;
    table.set(place::NUM_PLAYERS, n);
    table.set(place::ROUND_LENGTH, n);
    table.set(place::ROUND, 10);
    table.set(place::ROUND_BEFORE, 9);
    table.set(place::PLAYER_ACTIVE, (first_seats(n) & !folded) as usize);
    table.set(place::STARTING_PLAYER_ACTIVE, first_seats(n) as usize);
    table.set_float(place::BIG_BLIND, 10.0);
    table.set_float(place::SMALL_BLIND, 5.0);
    table.set_float(place::MIN_RAISE, 10.0);
    for (seat, &bet) in bets.iter().enumerate() {
        table.set_float(place::STACKS + seat, 100.0);
        table.set_float(place::STARTING_STACKS + seat, 100.0 + bet as f32);
        table.set_float(place::HAND_BETS + seat, bet as f32);
    }
    table.set_float(place::TOTAL_POT, bets.iter().sum::<u16>() as f32);
    table
}
