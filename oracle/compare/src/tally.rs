//! Counts by kind of question and by answer.

use std::fmt;

const MOST_REFUSALS: usize = 27;

/// What is asked, in the order in which it is told.
#[derive(Clone, Copy, PartialEq)]
pub enum Kind {
    Sets,
    Floats,
    RoundMade,
    RoundWalk,
    RoundBet,
    RoundQueries,
    Build,
    Advance,
    Complete,
    Fold,
    Bet,
    Forced,
    Call,
    AllIn,
    Award,
    Reward,
    Queries,
    Settle,
    Run,
    Script,
    ScriptEnd,
}

const NAMES: [&str; 21] = [
    "seat sets",
    "float helpers",
    "round data made",
    "round data: walk",
    "round data: bet",
    "round data: queries",
    "builds",
    "advance_round",
    "complete",
    "fold",
    "do_bet, voluntary",
    "do_bet, forced",
    "choice Call",
    "choice AllIn",
    "award",
    "player_reward",
    "queries",
    "settlements",
    "bets in a run",
    "script lines",
    "tables of scripts",
];

#[derive(Clone, Default)]
pub struct Tally {
    counts: [[u64; MOST_REFUSALS]; NAMES.len()],
}

impl Tally {
    pub fn count(&mut self, kind: Kind, refused: u32) {
        self.counts[kind as usize][refused as usize] += 1;
    }

    pub fn count_many(&mut self, kind: Kind, questions: u64) {
        self.counts[kind as usize][0] += questions;
    }

    pub fn add(&mut self, other: &Tally) {
        for (row, more) in self.counts.iter_mut().zip(&other.counts) {
            for (count, more) in row.iter_mut().zip(more) {
                *count += more;
            }
        }
    }

    fn row(&self, kind: usize) -> u64 {
        self.counts[kind].iter().sum()
    }

    /// What changes a record, or would: advance_round to award, and settlements.
    pub fn steps(&self) -> u64 {
        let on_records = Kind::Advance as usize..=Kind::Award as usize;
        on_records.map(|kind| self.row(kind)).sum::<u64>() + self.row(Kind::Settle as usize)
    }

    pub fn questions(&self) -> u64 {
        (0..NAMES.len()).map(|kind| self.row(kind)).sum()
    }
}

/// 1234567 as 1,234,567.
pub fn grouped(n: u64) -> String {
    let digits = n.to_string();
    let mut text = String::new();
    for (at, digit) in digits.chars().enumerate() {
        if at > 0 && (digits.len() - at).is_multiple_of(3) {
            text.push(',');
        }
        text.push(digit);
    }
    text
}

/// A line for each kind that was asked: taken, then each refusal that came.
impl fmt::Display for Tally {
    fn fmt(&self, f: &mut fmt::Formatter<'_>) -> fmt::Result {
        for (row, name) in self.counts.iter().zip(NAMES) {
            if row.iter().sum::<u64>() == 0 {
                continue;
            }
            write!(f, "{name:<20}")?;
            for (number, &count) in row.iter().enumerate().filter(|&(_, &count)| count > 0) {
                match number {
                    0 => write!(f, " taken {}", grouped(count))?,
                    _ => write!(f, "  {number}: {}", grouped(count))?,
                }
            }
            writeln!(f)?;
        }
        write!(
            f,
            "{} steps on records, {} questions",
            grouped(self.steps()),
            grouped(self.questions())
        )
    }
}
