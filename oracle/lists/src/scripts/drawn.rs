//! Scripts at random. Most lines are what a hand asks for next, so that hands are
//! played to a settlement; some are refused, and some are not of the form.

use rs_poker::arena::{GameState, Round};

use crate::draw::Draw;
use crate::scripts::player::Player;
use crate::scripts::pots;
use crate::scripts::written::Case;

const BETTING: [Round; 4] = [Round::Preflop, Round::Flop, Round::Turn, Round::River];

pub fn case(draw: &mut Draw, number: u64) -> Case {
    let mut script = Script::default();
    for _ in 0..draw.pick(&[1, 1, 1, 2]) {
        hand(draw, &mut script, false);
    }
    script.case(draw, format!("drawn {number}"))
}

/// A script with keys before its hands, in them and after them.
pub fn keyed(draw: &mut Draw, number: u64) -> Case {
    let mut script = Script::default();
    for _ in 0..draw.within(1, 3) {
        for _ in 0..draw.below(3) {
            script.add(key(draw));
            script.add(refused_table(draw));
        }
        mend_key(draw, &mut script);
        hand(draw, &mut script, true);
    }
    if draw.once_in(3) {
        script.add(key(draw));
        for _ in 0..draw.within(1, 2) {
            script.add(table(draw));
        }
    }
    script.case(draw, format!("drawn {number}, with keys"))
}

/// The table of the next hand must be accepted: a bad key, on which a table is 19, gives way to a good one. Else what
/// stands may be taken: a key typed during the hand before, or none.
fn mend_key(draw: &mut Draw, script: &mut Script) {
    let is_bad = !script.player.next_key_is_good();
    if is_bad && draw.once_in(2) {
        script.add(table(draw));
    }
    if is_bad || draw.once_in(2) {
        script.add(good_key(draw));
    }
}

/// The lines so far, and the table that they lead to.
#[derive(Default)]
struct Script {
    lines: Vec<Vec<u8>>,
    player: Player,
}

impl Script {
    fn add(&mut self, line: impl Into<Vec<u8>>) {
        let line = line.into();
        self.player.play_line(&line);
        self.lines.push(line);
    }

    fn add_all(&mut self, lines: &str) {
        lines.lines().for_each(|line| self.add(line));
    }

    /// The last line may lack its LF.
    fn case(self, draw: &mut Draw, what: String) -> Case {
        let mut bytes = self.lines.join(&b'\n');
        if !draw.once_in(10) {
            bytes.push(b'\n');
        }
        Case::new(what, bytes)
    }
}

/// A table, up to so many lines on it, and what each seat has at the end.
fn hand(draw: &mut Draw, script: &mut Script, is_keyed: bool) {
    if draw.once_in(6) {
        script.add(refused_table(draw));
    }
    script.add(table(draw));
    for _ in 0..draw.within(30, 70) {
        if draw.once_in(24) {
            script.add(stray(draw));
        }
        if is_keyed && draw.once_in(12) {
            script.add(key(draw));
        }
        let state = script.player.table.as_ref().expect("the table above is built");
        if state.round == Round::Complete {
            break;
        }
        let line = in_turn(draw, state);
        if draw.once_in(24) {
            script.add(garbled(draw, &line));
        }
        script.add(line);
    }
    end(draw, script);
}

fn end(draw: &mut Draw, script: &mut Script) {
    let state = script.player.table.as_ref().expect("the table above is built");
    let seats = state.num_players;
    if draw.once_in(2) {
        script.add("x");
    }
    script.add(ranks(draw, seats));
    if draw.once_in(4) {
        script.add(ranks(draw, seats));
    }
    script.add("x");
    script.add_all(&pots::shown(seats));
}

/// How many chips a seat has: few, some, up to 8,000 at the table, or any number.
fn table(draw: &mut Draw) -> String {
    let n = draw.players();
    let (most, blinds): (usize, &[usize]) = match draw.below(10) {
        0..=2 => (40, &[1, 2, 4]),
        3..=6 => (400, &[2, 10, 20, 25]),
        7..=8 => (8000 / n, &[10, 50, 101]),
        _ => (65535, &[1, 100, 5000, 65535]),
    };
    let big_blind = draw.pick(blinds);
    let small_blind = draw.pick(&[big_blind / 2, big_blind / 2, 0, big_blind]);
    let ante = draw.pick(&[0, 0, 0, 1, big_blind / 4]);
    let mut stacks: Vec<usize> = (0..n).map(|_| draw.within(1, most)).collect();
    if n > 2 && draw.once_in(5) {
        stacks[draw.below(n)] = 0;
    }
    if stacks.iter().filter(|&&stack| stack > 0).count() < 2 {
        stacks.fill(most);
    }
    let stacks: String = stacks.iter().map(|stack| format!(" {stack}")).collect();
    format!("t {} {big_blind} {small_blind} {ante}{stacks}", draw.below(n))
}

fn refused_table(draw: &mut Draw) -> String {
    let lines = [
        "t 0 10 5 0",
        "t 0 10 5 0 9",
        "t 3 10 5 0 9 9",
        "t 1 0 0 0 9 9",
        "t 1 2 1 0 9 0",
        "t 0 1 1",
    ];
    draw.pick(&lines).to_string()
}

/// A key for the next table: good, bad, or not of the form.
fn key(draw: &mut Draw) -> String {
    let not_of_the_form =
        ["k", "k 3 2026", "k 3 2026 7 1", "k 3 2026 65536", "k 3 2026 07", "K 3 1 7"];
    match draw.below(8) {
        0..=1 => format!("k {} 0 {}", draw.below(3), draw.pick(&[0, 1, 65_535])),
        2 => draw.pick(&not_of_the_form).to_string(),
        _ => good_key(draw),
    }
}

fn good_key(draw: &mut Draw) -> String {
    if draw.once_in(8) {
        return "k 0 0 0".to_string();
    }
    let year = draw.pick(&[1, 2026, 2027, 65_535]);
    format!("k {} {year} {}", draw.pick(&[0, 3, 65_535]), draw.pick(&[0, 7, 8, 65_535]))
}

/// The next line of the hand.
fn in_turn(draw: &mut Draw, state: &GameState) -> String {
    let data = &state.round_data;
    let forced = data.forced_bet_count;
    if state.round == Round::Ante && state.ante > 0.0 && usize::from(forced) < state.num_players {
        return format!("p {}", state.ante);
    }
    if state.num_active_players() < 2 && data.needs_action.empty() {
        return "x".to_string();
    }
    if !BETTING.contains(&state.round) || data.needs_action.empty() {
        return "n".to_string();
    }
    if state.round == Round::Preflop && forced < 2 {
        return format!("p {}", [state.small_blind, state.big_blind][usize::from(forced)]);
    }
    act(draw, state)
}

/// A call, a raise, a fold, all in, or an amount near a line of the bet.
fn act(draw: &mut Draw, state: &GameState) -> String {
    let raised = state.round_data.bet + state.round_data.min_raise;
    let amount = match draw.below(20) {
        0..=9 => state.round_data.bet,
        10..=12 => raised,
        13 => raised + draw.below(50) as f32,
        14..=15 => return "f".to_string(),
        16 => f32::from(u16::MAX),
        17 => state.current_round_current_player_bet() + state.current_player_stack(),
        18 => raised - 1.0 - draw.below(3) as f32,
        _ => state.round_data.bet - 1.0 - draw.below(9) as f32,
    };
    format!("b {}", amount.clamp(0.0, f32::from(u16::MAX)))
}

/// A line out of turn, or of no form.
fn stray(draw: &mut Draw) -> String {
    let lines = [
        "b 0",
        "p 0",
        "p 1",
        "b 65535",
        "f",
        "n",
        "w 1 2",
        "w 1 2 3",
        "w",
        "",
        " ",
        "b",
        "b 1 1",
        "b 01",
        "n ",
        "t",
        "r 5",
        "b 65536",
        "t 7 10 5 0 5 5",
        "B 5",
        "n\r",
    ];
    draw.pick(&lines).to_string()
}

/// The line with one byte dropped, doubled, put in or replaced. It may still be of the form.
fn garbled(draw: &mut Draw, line: &str) -> Vec<u8> {
    let mut bytes = line.as_bytes().to_vec();
    let at = draw.below(bytes.len());
    let other = draw.pick(b" 0123456789tnfbpxw-+\t\r\0\xff");
    match draw.below(4) {
        0 => drop(bytes.remove(at)),
        1 => bytes.insert(at, bytes[at]),
        2 => bytes.insert(at, other),
        _ => bytes[at] = other,
    }
    bytes
}

/// Ranks of few kinds, so that some are equal.
fn ranks(draw: &mut Draw, seats: usize) -> String {
    let kinds = draw.pick(&[1, 2, 2, 3, 5, 1 << 16]);
    let ranks: String = (0..seats).map(|_| format!(" {}", draw.below(kinds))).collect();
    format!("w{ranks}")
}
