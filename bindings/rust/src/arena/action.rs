//! What the seat to act chooses.

/// One of four; only a bet carries an amount.
#[derive(Debug, Clone, PartialEq)]
pub enum AgentAction {
    /// Folds the hand.
    Fold,
    /// Bets the bet of the round.
    Call,
    /// Bets this amount.
    Bet(f32),
    /// Bets plus infinity, which the stack caps.
    AllIn,
}
