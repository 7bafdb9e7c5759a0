//! The hands of a script, by the words of document 02 and their readings, and a hand as a script again.

use crate::journal::entry::Four;
use crate::journal::hand::{self, Hand, Line};
use crate::journal::{EDITION, Title};
use crate::key::Key;
use crate::refusals::{Refusal, SCRIPT_TOO_LONG};
use crate::scripts::player::{MOST_BYTES, Player};
use crate::scripts::reading;

/// A hand as it was typed: the key that stood at its `t`, and its accepted lines.
#[derive(PartialEq, Eq, Debug)]
pub struct Typed {
    pub key: Key,
    pub lines: Vec<Line>,
}

impl Typed {
    /// Its blocks; 28 where it has no key or too many entries.
    pub fn image(&self) -> Result<Vec<u8>, Refusal> {
        let tape: Vec<Four> = self.lines.iter().flat_map(Line::fours).collect();
        hand::write(Title::new(self.key, EDITION), &tape)
    }
}

/// All hands of a script in order, those too that the writer does not keep. 26 where it is too long to be played.
pub fn hands(script: &[u8]) -> Result<Vec<Typed>, Refusal> {
    if script.len() > MOST_BYTES {
        return Err(SCRIPT_TOO_LONG);
    }
    let (mut player, mut hands) = (Player::default(), Vec::new());
    for text in reading::lines(script) {
        // "Only accepted lines go in": a refused one, a `t` too, changes nothing.
        if player.obey(text).is_ok() {
            take(&mut hands, player.key(), typed(text));
        }
    }
    Ok(hands)
}

/// "The second accepted `t` closes the hand and opens the next", and "`k` lives in the key".
fn take(hands: &mut Vec<Typed>, key: Key, line: Line) {
    match line.letter {
        b'k' => {}
        b't' => hands.push(Typed { key, lines: vec![line] }),
        _ => hands.last_mut().expect("only on a table is it accepted").lines.push(line),
    }
}

/// A line that was accepted is a letter and numbers with a space before each.
fn typed(text: &[u8]) -> Line {
    let (letter, rest) = text.split_first().expect("an empty line is never accepted");
    let rest = std::str::from_utf8(rest).expect("digits and spaces");
    let numbers = rest.split_whitespace().map(|word| word.parse().expect("a script's number"));
    Line { letter: *letter, numbers: numbers.collect() }
}

/// A hand as a script: its key's line, which ends at hand 65,535, then its own lines.
pub fn of_hand(hand: &Hand) -> String {
    let key = hand.title.key;
    let first = u16::try_from(key.hand).map_or(String::new(), |_| format!("k {key}\n"));
    hand.lines().iter().fold(first, |text, line| text + &spelled(line))
}

fn spelled(line: &Line) -> String {
    let numbers: String = line.numbers.iter().map(|number| format!(" {number}")).collect();
    format!("{}{numbers}\n", char::from(line.letter))
}

#[cfg(test)]
mod tests {
    use super::{hands, of_hand, spelled};
    use crate::journal::hand;
    use crate::key::Key;
    use crate::refusals::{NOT_KEPT, SCRIPT_TOO_LONG};

    const TABLE: &str = "t 0 10 5 0 9 9";

    /// The hands of these lines: the hand number of each key, 0 for no key, and its lines.
    fn told(lines: &[&str]) -> Vec<(u32, String)> {
        let hands = hands(lines.join("\n").as_bytes()).expect("a short script");
        let text = |lines: &[_]| lines.iter().map(spelled).collect::<String>().replace('\n', ",");
        hands.iter().map(|hand| (hand.key.hand, text(&hand.lines))).collect()
    }

    fn hand(number: u32, lines: &str) -> (u32, String) {
        (number, format!("{TABLE},{lines}"))
    }

    #[test]
    fn a_key_typed_in_a_hand_is_the_next_ones() {
        let lines = ["k 3 2026 1", TABLE, "n", "k 3 2026 2", "p 5", TABLE, "x"];
        assert_eq!(told(&lines), [hand(1, "n,p 5,"), hand(2, "x,")]);
        assert_eq!(told(&["k 3 2026 1", "k 3 2026 2", TABLE]), [hand(2, "")]);
        assert_eq!(told(&["k 3 2026 1", TABLE, "k 3 2026 2"]), [hand(1, "")]);
    }

    #[test]
    fn a_refused_table_closes_nothing_and_uses_no_key_up() {
        let refused = ["t 0 0 5 0 9 9", "t 0 10 5 0 9", "t 0 10 5"];
        for other in refused {
            let lines = ["k 3 2026 1", TABLE, "k 3 2026 2", other, "n", TABLE];
            assert_eq!(told(&lines), [hand(1, "n,"), hand(2, "")], "{other}");
        }
        // a bad key, on which a table is 19
        let lines = ["k 3 2026 1", TABLE, "k 5 0 0", TABLE, "n", "k 3 2026 2", TABLE];
        assert_eq!(told(&lines), [hand(1, "n,"), hand(2, "")]);
    }

    #[test]
    fn a_hand_without_a_key_stands_between_others_and_is_28() {
        let lines = ["k 3 2026 1", TABLE, TABLE, "n", "k 3 2026 3", TABLE];
        assert_eq!(told(&lines), [hand(1, ""), hand(0, "n,"), hand(3, "")]);
        let typed = hands(lines.join("\n").as_bytes()).expect("a short script");
        assert_eq!(typed[1].image(), Err(NOT_KEPT));
        assert_eq!(typed[1].key, Key::NONE);
        assert_eq!(typed[2].image().map(|bytes| bytes.len()), Ok(512));
        assert_eq!(told(&["k 3 2026 1", "k 0 0 0", TABLE]), [hand(0, "")]);
    }

    #[test]
    fn refused_lines_are_left_out() {
        let lines = ["n", "k 3 2026 1", "p 5", TABLE, "b 01", "w 1", "", "N", "w 0 0", "k 3 2026"];
        assert_eq!(told(&lines), [hand(1, "w 0 0,")]);
    }

    #[test]
    fn one_key_may_be_typed_twice_and_no_table_is_no_hand() {
        let lines = ["k 3 2026 65535", TABLE, "k 3 2026 65535", TABLE, "f"];
        assert_eq!(told(&lines), [hand(65_535, ""), hand(65_535, "f,")]);
        for none in [&[][..], &[""], &["k 3 2026 1"], &["k 3 2026 1", "n", "t 0 10 5 0 9"]] {
            assert_eq!(told(none), []);
        }
    }

    #[test]
    fn a_hand_has_255_blocks_and_a_script_65536_bytes() {
        let of = |count: usize| format!("k 3 2026 1\n{TABLE}\n{}", "x\n".repeat(count));
        let image = |count| hands(of(count).as_bytes()).expect("short")[0].image();
        assert_eq!(image(30_593).map(|bytes| bytes.len()), Ok(255 * 512));
        assert_eq!(image(30_594), Err(NOT_KEPT));
        assert_eq!(hands(&[b'\n'; 65_536]), Ok(vec![]));
        assert_eq!(hands(&[b'\n'; 65_537]), Err(SCRIPT_TOO_LONG));
    }

    #[test]
    fn a_hand_is_a_script_with_its_key_first() {
        let text = format!("k 3 2026 65535\n{TABLE}\nn\np 5\nw 0 0\n");
        let mut typed = hands(text.as_bytes()).expect("a short script").remove(0);
        let back = |bytes: &[u8]| of_hand(&hand::read(bytes).expect("a hand"));
        assert_eq!(back(&typed.image().expect("kept")), text);
        typed.key.hand = 65_536;
        assert_eq!(back(&typed.image().expect("kept")), text[text.find('t').expect("a table")..]);
    }
}
