//! A builder with each field given or not: asked of the Rust, and written.

use rs_poker::arena::{GameState, GameStateBuilder, GameStateBuilderError, RoundData};
use rs_poker::core::{Card, Hand};

use crate::carry::{self, ROUNDS};
use crate::key::Key;
use crate::line::Line;
use crate::refusals::{self, BAD_CARD, BAD_RECORD, Refusal};
use crate::sound;
use crate::table::{MAX_SEATS, Table};

/// Cards are numbers, and may be above 51. Of hands only the count matters.
#[derive(Clone, Default)]
pub struct Builder {
    pub stacks: Option<Vec<f32>>,
    /// In the place of the stacks: so many seats with this stack each.
    pub same_stacks: Option<(usize, f32)>,
    pub big_blind: Option<f32>,
    pub small_blind: Option<f32>,
    pub ante: Option<f32>,
    pub dealer_idx: Option<usize>,
    pub cap: Option<Option<u8>>,
    pub round: Option<usize>,
    pub board: Option<Vec<u8>>,
    pub hands: Option<usize>,
    pub player_bet: Option<Vec<f32>>,
    pub round_data: Option<RoundData>,
    pub key: Option<Key>,
}

impl Builder {
    /// The seats that the stacks make; 2 where none are given.
    pub fn players(&self) -> usize {
        self.stacks.as_ref().map_or(2, Vec::len)
    }

    /// The answer: the Rust's, and after it ours, 18 and 19. The key is looked at last, and the table carries it.
    pub fn build(&self) -> Result<Table, Refusal> {
        let state = self.ask().map_err(refusals::of_build)?;
        if self.first_bad_card().is_some() {
            return Err(BAD_CARD);
        }
        let key = self.key.unwrap_or(Key::NONE);
        if !self.round_data_fits(state.num_players) || !key.is_good() {
            return Err(BAD_RECORD);
        }
        let mut table = carry::table(&state);
        key.put(&mut table);
        Ok(table)
    }

    fn ask(&self) -> Result<GameState, GameStateBuilderError> {
        let mut builder = GameStateBuilder::new();
        macro_rules! give {
            ($($setter:ident: $value:expr),*) => {
                $(if let Some(value) = $value { builder = builder.$setter(value); })*
            };
        }
        give! {
            stacks: self.stacks.as_ref(),
            big_blind: self.big_blind,
            small_blind: self.small_blind,
            ante: self.ante,
            dealer_idx: self.dealer_idx,
            max_raises_per_round: self.cap,
            round: self.round.map(|round| ROUNDS[round]),
            board: self.board_for_rust(),
            hands: self.hands.map(|count| vec![Hand::default(); count]),
            player_bet: self.player_bet.as_ref(),
            round_data: self.round_data.clone()
        }
        if let Some((count, stack)) = self.same_stacks {
            // The Rust's list cannot have any number of places. From 17 on it refuses them all alike.
            builder = builder.num_players_with_stack(count.min(MAX_SEATS + 1), stack);
        }
        builder.build()
    }

    fn first_bad_card(&self) -> Option<usize> {
        self.board.as_ref()?.iter().position(|&card| card > 51)
    }

    /// The Rust has no card above 51. From the first such on it gets other cards
    /// that are new to the board: what it refuses then comes before our 18.
    fn board_for_rust(&self) -> Option<Vec<Card>> {
        let board = self.board.as_ref()?;
        let asked = self.first_bad_card().unwrap_or(board.len());
        let fresh = (0..52).filter(|card| !board[..asked].contains(card));
        let cards = board[..asked].iter().copied().chain(fresh);
        Some(cards.take(board.len()).map(Card::from).collect())
    }

    fn round_data_fits(&self, n: usize) -> bool {
        self.round_data.as_ref().is_none_or(|data| {
            data.player_bet.len() == n
                && data.to_act_idx < n
                && sound::within(carry::bits_of(data.starting_player_active), n)
                && sound::within(carry::bits_of(data.needs_action), n)
        })
    }

    pub fn write(&self, line: Line) -> Line {
        let line = match self.same_stacks {
            Some((count, stack)) => line.token('W').token(count).float(stack),
            None => optional(line, &self.stacks, |line, stacks| floats(line.token('S'), stacks)),
        };
        let line = optional(line, &self.big_blind, |line, &x| line.token('G').float(x));
        let line = optional(line, &self.small_blind, |line, &x| line.token('M').float(x));
        let line = optional(line, &self.ante, |line, &x| line.token('A').float(x));
        let line = optional(line, &self.dealer_idx, |line, seat| line.token('D').token(seat));
        let line = optional(line, &self.cap, |line, cap| match cap {
            None => line.token('R').flag(false),
            Some(cap) => line.token('R').flag(true).token(cap),
        });
        let line = optional(line, &self.round, |line, round| line.token('O').token(round));
        let line = optional(line, &self.board, |line, cards| {
            let line = line.token('C').token(cards.len());
            cards.iter().fold(line, Line::token)
        });
        let line = optional(line, &self.hands, |line, count| line.token('H').token(count));
        let line = optional(line, &self.player_bet, |line, bets| floats(line.token('P'), bets));
        let line = optional(line, &self.round_data, write_round_data);
        // A key has no dash where it is not given, so that lists without one are as they were.
        self.key.iter().fold(line, |line, key| line.token('K').token(key))
    }
}

fn optional<T>(line: Line, field: &Option<T>, given: impl Fn(Line, &T) -> Line) -> Line {
    match field {
        None => line.token('-'),
        Some(value) => given(line, value),
    }
}

fn floats(line: Line, xs: &[f32]) -> Line {
    line.token(xs.len()).floats(xs)
}

fn write_round_data(line: Line, data: &RoundData) -> Line {
    let line = line.token('Q');
    let line = line.token(carry::bits_of(data.starting_player_active));
    let line = line.token(carry::bits_of(data.needs_action));
    let line = line.float(data.min_raise).float(data.bet).token(data.total_bet_count);
    let line = line.token(data.total_raise_count).token(data.forced_bet_count);
    line.token(data.to_act_idx).token(data.player_bet.len()).floats(&data.player_bet)
}
