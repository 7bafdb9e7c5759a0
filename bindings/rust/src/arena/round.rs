//! The twelve rounds.

/// The round of the game.
#[derive(Copy, Clone, Debug, PartialEq, Eq, Hash, Default)]
pub enum Round {
    /// Before the hand.
    #[default]
    Starting,
    /// The antes are put in.
    Ante,
    /// Each seat gets its cards.
    DealPreflop,
    /// The first bets, after the blinds.
    Preflop,
    /// Three cards on the board.
    DealFlop,
    /// The second bets.
    Flop,
    /// The fourth card.
    DealTurn,
    /// The third bets.
    Turn,
    /// The fifth card.
    DealRiver,
    /// The last bets.
    River,
    /// Hands are shown.
    Showdown,
    /// The hand is over.
    Complete,
}

/// In the order in which they follow.
pub(crate) const ROUNDS: [Round; 12] = [
    Round::Starting,
    Round::Ante,
    Round::DealPreflop,
    Round::Preflop,
    Round::DealFlop,
    Round::Flop,
    Round::DealTurn,
    Round::Turn,
    Round::DealRiver,
    Round::River,
    Round::Showdown,
    Round::Complete,
];

impl Round {
    /// The next round; after Complete it stays.
    pub fn advance(&self) -> Self {
        ROUNDS[(*self as usize + 1).min(Round::Complete as usize)]
    }
}
