//! Plays a script on the Rust's own GameState, as documents 01 and 02 tell it, and gives
//! what is printed. Settlement and keys, which the Rust lacks, are ours.

use rs_poker::arena::{GameState, GameStateBuilder};

use crate::key::Key;
use crate::refusals::{self, BAD_LINE, BAD_RECORD, INVALID_PLAYER_COUNT, Refusal, SCRIPT_TOO_LONG};
use crate::scripts::reading::{self, Ask};
use crate::table::{MAX_SEATS, Table};
use crate::{carry, settlement, step};

pub const MOST_BYTES: usize = 65536;
const MOST_SHOWN: f32 = 16777216.0;

/// All that a script prints.
pub fn play(script: &[u8]) -> String {
    if script.len() > MOST_BYTES {
        return format!("0 {SCRIPT_TOO_LONG} - - - -\n");
    }
    let mut player = Player::default();
    reading::lines(script).map(|line| player.play_line(line)).collect()
}

/// The table that stands at the script's end, with its key.
pub fn table_at_end(script: &[u8]) -> Result<Table, Refusal> {
    if script.len() > MOST_BYTES {
        return Err(SCRIPT_TOO_LONG);
    }
    let mut player = Player::default();
    reading::lines(script).for_each(|line| drop(player.play_line(line)));
    let mut table = carry::table(player.table.as_ref().ok_or(BAD_LINE)?);
    player.key.put(&mut table);
    Ok(table)
}

/// The lines played so far, the table where one stands, its key, and the key for the next.
#[derive(Default)]
pub struct Player {
    lines: usize,
    pub table: Option<GameState>,
    key: Key,
    next_key: Key,
}

impl Player {
    /// Plays a line, and gives the line that is printed for it.
    pub fn play_line(&mut self, line: &[u8]) -> String {
        self.lines += 1;
        let number = self.obey(line).err().unwrap_or(0);
        format!("{} {number} {}\n", self.lines, shown(self.table.as_ref()))
    }

    /// Plays a line, or tells why it is refused.
    pub fn obey(&mut self, line: &[u8]) -> Result<(), Refusal> {
        let ask = match reading::read(line).ok_or(BAD_LINE)? {
            Ask::Table { dealer, big_blind, small_blind, ante, stacks } => {
                let state = build(dealer, [big_blind, small_blind, ante], &stacks)?;
                return self.open(state);
            }
            Ask::Key(key) => {
                self.next_key = key;
                return Ok(());
            }
            other => other,
        };
        let state = self.table.as_mut().ok_or(BAD_LINE)?;
        match ask {
            Ask::Table { .. } | Ask::Key(_) => unreachable!("these were taken above"),
            Ask::Advance => state.advance_round(),
            Ask::Fold => state.fold(),
            Ask::Complete => state.complete(),
            Ask::Bet(amount) => drop(step::bet_on(state, amount.into(), false)?),
            Ask::Forced(amount) => drop(step::bet_on(state, amount.into(), true)?),
            Ask::Settle(ranks) if ranks.len() != state.num_players => return Err(BAD_LINE),
            Ask::Settle(ranks) => *state = settle(state, &ranks)?,
        }
        Ok(())
    }

    /// The key of the table that stands.
    pub fn key(&self) -> Key {
        self.key
    }

    pub fn next_key_is_good(&self) -> bool {
        self.next_key.is_good()
    }

    /// The key is checked last, and used up by the table that takes it.
    fn open(&mut self, state: GameState) -> Result<(), Refusal> {
        if !self.next_key.is_good() {
            return Err(BAD_RECORD);
        }
        self.table = Some(state);
        self.key = std::mem::take(&mut self.next_key);
        Ok(())
    }
}

fn build(dealer: u16, forced: [u16; 3], stacks: &[u16]) -> Result<GameState, Refusal> {
    // Document 01 names this before the builder's other refusals, and so does the Rust.
    if !(2..=MAX_SEATS).contains(&stacks.len()) {
        return Err(INVALID_PLAYER_COUNT);
    }
    let [big_blind, small_blind, ante] = forced.map(f32::from);
    let stacks: Vec<f32> = stacks.iter().map(|&stack| stack.into()).collect();
    let builder = GameStateBuilder::new().dealer_idx(dealer.into()).stacks(stacks);
    let builder = builder.big_blind(big_blind).small_blind(small_blind).ante(ante);
    builder.build().map_err(refusals::of_build)
}

fn settle(state: &GameState, ranks: &[u16]) -> Result<GameState, Refusal> {
    let after = settlement::settled(&carry::table(state), ranks)?;
    Ok(carry::game_state(&after))
}

/// Round, seat to act, pot and bet, or dashes while no table stands.
fn shown(table: Option<&GameState>) -> String {
    let Some(state) = table else {
        return "- - - -".to_string();
    };
    let (pot, bet) = (amount(state.total_pot), amount(state.round_data.bet));
    format!("{} {} {pot} {bet}", state.round as u8, state.to_act_idx())
}

fn amount(x: f32) -> String {
    let whole = (0.0..=MOST_SHOWN).contains(&x) && x.fract() == 0.0;
    if whole { (x as u32).to_string() } else { "?".to_string() }
}

#[cfg(test)]
mod tests {
    use super::{amount, play, table_at_end};
    use crate::key::Key;

    #[test]
    fn the_worked_script_of_document_01() {
        let script = "t 0 10 5 0 100 100\nn\nn\nn\np 5\np 10\nb 9\nb 15\nb 20\nf\nw 0 0\n";
        let printed = "1 0 0 0 0 0\n2 0 1 1 0 0\n3 0 2 1 0 0\n4 0 3 0 0 0\n5 0 3 1 5 5\n\
                       6 0 3 0 15 10\n7 16 3 0 15 10\n8 17 3 0 15 10\n9 0 3 1 30 20\n\
                       10 0 3 0 30 20\n11 0 3 0 30 20\n";
        assert_eq!(play(script.as_bytes()), printed);
    }

    #[test]
    fn a_table_takes_the_key_that_stands() {
        let t = "t 0 10 5 0 9 9\n";
        let key = |script: &str| Key::of(&table_at_end(script.as_bytes()).expect("a table"));
        assert_eq!(key(&format!("k 3 2026 7\n{t}n\nk 3 2026 8\n")), Key::new(3, 2026, 7));
        assert_eq!(key(&format!("k 3 2026 7\nt 0 0 5 0 9 9\n{t}")), Key::new(3, 2026, 7));
        assert_eq!(key(&format!("k 3 2026 7\n{t}{t}")), Key::NONE);
        assert_eq!(play(format!("k 5 0 0\n{t}").as_bytes()), "1 0 - - - -\n2 19 - - - -\n");
    }

    #[test]
    fn an_amount_is_whole_up_to_two_to_the_24() {
        assert_eq!(amount(-0.0), "0");
        assert_eq!(amount(16777216.0), "16777216");
        for other in [16777218.0, -1.0, 0.5, f32::NAN, f32::INFINITY] {
            assert_eq!(amount(other), "?");
        }
    }
}
