//! Settlements made visible. An award moves stacks, which are not printed: after
//! `w` each seat puts its whole stack in, and the pot rises by it.

use crate::scripts::written::Case;

pub fn all() -> Vec<Case> {
    let mut cases: Vec<Case> = HANDS.iter().map(|hand| hand.case()).collect();
    cases.push(every_rank_order());
    cases.push(every_share());
    cases.push(every_dealer());
    cases
}

/// Hand bets with what each seat has beside its bet, who folds, and the ranks.
struct Hand {
    what: &'static str,
    bets: &'static [u16],
    spare: &'static [u16],
    folded: &'static [usize],
    ranks: &'static [u16],
}

impl Hand {
    fn case(&self) -> Case {
        Case::new(self.what, self.played(0))
    }

    fn played(&self, dealer: usize) -> String {
        played(dealer, self.bets, self.spare, self.folded, self.ranks)
    }
}

/// Each seat posts its bet, the dealer first. Then those who fold do, and the others post 0.
fn played(dealer: usize, bets: &[u16], spare: &[u16], folded: &[usize], ranks: &[u16]) -> String {
    let stacks = bets.iter().zip(spare).map(|(bet, spare)| format!(" {}", bet + spare));
    let in_turn = || (0..bets.len()).map(|place| (dealer + place) % bets.len());
    let posted = in_turn().map(|seat| format!("p {}\n", bets[seat]));
    let with_chips = in_turn().filter(|&seat| spare[seat] > 0);
    let turns = with_chips.map(|seat| if folded.contains(&seat) { "f\n" } else { "p 0\n" });
    let ranks = ranks.iter().map(|rank| format!(" {rank}"));
    let mut script = format!("t {dealer} 1 0 0{}\n", stacks.collect::<String>());
    script.extend(posted);
    script.extend(turns);
    script + &format!("x\nw{}\n", ranks.collect::<String>()) + &shown(bets.len())
}

/// After `x` and `w`: every seat is all in once, those who are active first. Two
/// rounds of the table reach each of them.
pub fn shown(seats: usize) -> String {
    "p 65535\n".repeat(2 * seats)
}

const HANDS: &[Hand] = &[
    Hand {
        what: "a short stack wins the main pot",
        bets: &[10, 30, 30],
        spare: &[0, 0, 0],
        folded: &[],
        ranks: &[9, 5, 5],
    },
    Hand {
        what: "the odd chip to the first winner",
        bets: &[5, 5, 5],
        spare: &[4, 0, 0],
        folded: &[0],
        ranks: &[4, 4, 4],
    },
    Hand {
        what: "odd chips of two layers",
        bets: &[6, 5, 8, 8],
        spare: &[1, 0, 0, 0],
        folded: &[0],
        ranks: &[3, 3, 3, 3],
    },
    Hand {
        what: "a contender without a bet beside levels",
        bets: &[0, 8, 8],
        spare: &[0, 2, 2],
        folded: &[],
        ranks: &[9, 1, 1],
    },
    Hand {
        what: "three stacks, the shortest wins",
        bets: &[10, 20, 30],
        spare: &[0, 0, 0],
        folded: &[],
        ranks: &[3, 2, 1],
    },
    Hand {
        what: "three stacks, the middle one wins",
        bets: &[10, 20, 30],
        spare: &[0, 0, 0],
        folded: &[],
        ranks: &[1, 3, 2],
    },
    Hand {
        what: "three stacks, the longest wins",
        bets: &[10, 20, 30],
        spare: &[0, 0, 0],
        folded: &[],
        ranks: &[1, 2, 3],
    },
    Hand {
        what: "three stacks, all equal",
        bets: &[10, 20, 30],
        spare: &[0, 0, 0],
        folded: &[],
        ranks: &[2, 2, 2],
    },
    Hand {
        what: "three stacks out of order",
        bets: &[31, 7, 18],
        spare: &[0, 0, 0],
        folded: &[],
        ranks: &[0, 65535, 65535],
    },
    Hand {
        what: "five stacks, each a level",
        bets: &[1, 2, 3, 4, 5],
        spare: &[0, 0, 0, 0, 0],
        folded: &[],
        ranks: &[5, 4, 3, 2, 1],
    },
    Hand {
        what: "five levels shared by all",
        bets: &[5, 9, 14, 20, 33],
        spare: &[0, 0, 0, 0, 0],
        folded: &[],
        ranks: &[7, 7, 7, 7, 7],
    },
    Hand {
        what: "two winners, one odd chip",
        bets: &[3, 3, 3],
        spare: &[1, 1, 1],
        folded: &[],
        ranks: &[0, 8, 8],
    },
    Hand {
        what: "three winners, one odd chip",
        bets: &[4, 4, 4, 1],
        spare: &[0, 0, 0, 9],
        folded: &[3],
        ranks: &[6, 6, 6, 6],
    },
    Hand {
        what: "three winners, two odd chips",
        bets: &[4, 4, 4, 2],
        spare: &[0, 0, 0, 9],
        folded: &[3],
        ranks: &[6, 6, 6, 6],
    },
    Hand {
        what: "odd chips pass over a folded seat",
        bets: &[7, 7, 7, 7, 7],
        spare: &[3, 3, 3, 3, 3],
        folded: &[0, 2],
        ranks: &[1, 1, 1, 1, 1],
    },
    Hand {
        what: "odd chips pass over a worse rank",
        bets: &[7, 7, 7],
        spare: &[3, 3, 3],
        folded: &[],
        ranks: &[0, 5, 5],
    },
    Hand {
        what: "folded chips above the top level",
        bets: &[9, 4, 4],
        spare: &[5, 0, 0],
        folded: &[0],
        ranks: &[7, 1, 2],
    },
    Hand {
        what: "folded chips above the top level, shared",
        bets: &[12, 5, 5, 10],
        spare: &[1, 0, 0, 1],
        folded: &[0, 3],
        ranks: &[7, 2, 2, 9],
    },
    Hand {
        what: "folded chips between two levels",
        bets: &[10, 15, 20, 20],
        spare: &[0, 9, 0, 0],
        folded: &[1],
        ranks: &[5, 9, 3, 3],
    },
    Hand {
        what: "no level: folded chips alone, for all contenders",
        bets: &[7, 0, 0],
        spare: &[3, 5, 5],
        folded: &[0],
        ranks: &[9, 2, 2],
    },
    Hand {
        what: "one contender takes it all",
        bets: &[6, 11, 3],
        spare: &[4, 4, 4],
        folded: &[0, 2],
        ranks: &[9, 0, 9],
    },
    Hand {
        what: "an overbet comes back",
        bets: &[100, 40],
        spare: &[0, 0],
        folded: &[],
        ranks: &[1, 2],
    },
    Hand {
        what: "two seats, one chip each, equal",
        bets: &[1, 1],
        spare: &[0, 0],
        folded: &[],
        ranks: &[0, 0],
    },
    Hand {
        what: "the best rank folded",
        bets: &[20, 20, 20],
        spare: &[1, 1, 1],
        folded: &[1],
        ranks: &[3, 65535, 4],
    },
    Hand {
        what: "sixteen seats, sixteen levels",
        bets: &[16, 15, 14, 13, 12, 11, 10, 9, 8, 7, 6, 5, 4, 3, 2, 1],
        spare: &[0; 16],
        folded: &[],
        ranks: &[1, 2, 3, 4, 5, 6, 7, 8, 9, 10, 11, 12, 13, 14, 15, 16],
    },
    Hand {
        what: "sixteen seats, three of them share 160 chips",
        bets: &[10, 10, 10, 10, 10, 10, 10, 10, 10, 10, 10, 10, 10, 10, 10, 10],
        spare: &[0; 16],
        folded: &[],
        ranks: &[0, 0, 0, 0, 0, 0, 0, 9, 9, 9, 0, 0, 0, 0, 0, 0],
    },
    Hand {
        what: "a pot of 7,999, an odd chip",
        bets: &[4000, 3999],
        spare: &[0, 1],
        folded: &[],
        ranks: &[1, 1],
    },
    Hand {
        what: "a pot of 8,000",
        bets: &[4000, 4000],
        spare: &[0, 0],
        folded: &[],
        ranks: &[1, 1],
    },
    Hand {
        what: "a pot of 8,000 of three levels",
        bets: &[1333, 2667, 4000],
        spare: &[0, 0, 0],
        folded: &[],
        ranks: &[2, 2, 2],
    },
    Hand {
        what: "23: a pot of 8,001",
        bets: &[4000, 4001],
        spare: &[0, 0],
        folded: &[],
        ranks: &[1, 1],
    },
    Hand {
        what: "23: a pot of 8,000 and a chip behind",
        bets: &[4000, 4000],
        spare: &[0, 1],
        folded: &[],
        ranks: &[1, 1],
    },
    Hand {
        what: "23: sixteen stacks of 501",
        bets: &[500; 16],
        spare: &[1; 16],
        folded: &[],
        ranks: &[1; 16],
    },
    Hand {
        what: "sixteen stacks of 500, eleven winners, nine odd chips",
        bets: &[499; 16],
        spare: &[1; 16],
        folded: &[],
        ranks: &[1, 1, 1, 1, 1, 1, 1, 1, 1, 1, 1, 0, 0, 0, 0, 0],
    },
    Hand {
        what: "two odd chips for three of sixteen",
        bets: &[1, 1, 1, 2, 1, 1, 1, 1, 1, 1, 1, 1, 1, 1, 1, 1],
        spare: &[0, 0, 0, 3, 0, 0, 0, 0, 0, 0, 0, 0, 0, 0, 0, 0],
        folded: &[3],
        ranks: &[9, 4, 4, 9, 4, 4, 4, 9, 4, 4, 4, 4, 4, 4, 4, 9],
    },
];

/// One hand of three levels, settled by every order of three ranks and their ties.
fn every_rank_order() -> Case {
    let mut script = String::new();
    for code in 0..27 {
        let ranks = [code % 3, code / 3 % 3, code / 9];
        script += &played(0, &[5, 11, 18], &[0, 0, 0], &[], &ranks);
    }
    Case::new("stacks of 5, 11 and 18, by every order of ranks", script)
}

/// Pots of 12 to 21 chips shared by two, three and four of five.
fn every_share() -> Case {
    let mut script = String::new();
    for first in 0..10 {
        for ranks in [[1, 1, 0, 0], [0, 1, 1, 1], [1, 1, 1, 1]] {
            script += &played(0, &[first, 4, 4, 4], &[1, 1, 1, 1], &[0], &ranks);
        }
    }
    Case::new("pots of 12 to 21 chips among those who did not fold", script)
}

/// Hands with odd chips, of one layer, of two and of sixteen seats, with each seat as the dealer.
fn every_dealer() -> Case {
    let names = [
        "the odd chip to the first winner",
        "odd chips of two layers",
        "two odd chips for three of sixteen",
    ];
    let mut script = String::new();
    for hand in HANDS.iter().filter(|hand| names.contains(&hand.what)) {
        for dealer in 0..hand.bets.len() {
            script += &hand.played(dealer);
        }
    }
    Case::new("odd chips, with each seat as the dealer", script)
}
