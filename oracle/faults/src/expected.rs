//! What the program must answer about a card, by the second journal and docs/CARD.md.

use lists::journal::block::BYTES;
use lists::journal::card::{self, Card, Placed};
use lists::journal::script::{self, Typed};
use lists::key::Key;

use crate::due::Due;

const DONE: i32 = 0;
const REFUSED: i32 = 1;
const NOT_THERE: i32 = 3;

fn done(out: String) -> Due {
    Due { status: DONE, out, says: Vec::new() }
}

/// 27, and the block that it is about.
fn bad(block: usize) -> Due {
    let words = vec!["27 BadJournal".into(), format!("block {block}")];
    Due { status: REFUSED, out: String::new(), says: vec![words] }
}

/// A line for each hand, or 27: a list that ends at a tear would look whole.
pub fn list(card: &Card) -> Due {
    let line = |at: &Placed| format!("{} {} {}\n", at.key(), at.first, at.hand.blocks);
    card.bad.map_or_else(|| done(card.hands.iter().map(line).collect()), bad)
}

/// The first hand with the key; that it is not there can be told only of a card that reads to its end.
pub fn read(card: &Card, key: Key) -> Due {
    let mut with_key = card.hands.iter().filter(|at| at.key() == key);
    match (with_key.next(), card.bad) {
        (Some(first), _) => hand(first, with_key.next()),
        (None, Some(block)) => bad(block),
        (None, None) => {
            let words = vec![format!("has no hand {key}")];
            Due { status: NOT_THERE, out: String::new(), says: vec![words] }
        }
    }
}

/// A hand number that fits no `k` line is told, and where the key stands again.
fn hand(first: &Placed, again: Option<&Placed>) -> Due {
    let key = first.key();
    let mut due = done(script::of_hand(&first.hand));
    if key.hand > u16::MAX.into() {
        due.says.push(vec![format!("hand {} fits no k line", key.hand)]);
    }
    if let Some(at) = again {
        due.says.push(vec![format!("key {key} stands again at block {}", at.first)]);
    }
    due
}

/// A card after `record`, and the answer. None stands for a file that is not there.
pub struct Recorded {
    pub due: Due,
    pub file: Option<Vec<u8>>,
}

/// Nothing is written behind a tear, and nothing of a script that is too long; else a missing file is made.
pub fn record(file: Option<&[u8]>, script: &[u8]) -> Recorded {
    let stood = file.map(<[u8]>::to_vec);
    if let Some(block) = card::read(file.unwrap_or_default()).bad {
        let mut due = bad(block);
        due.says.push(vec!["nothing is appended".into()]);
        return Recorded { due, file: stood };
    }
    match script::hands(script) {
        Err(_) => {
            let words = vec!["26 ScriptTooLong".into(), "nothing is written".into()];
            let due = Due { status: REFUSED, out: String::new(), says: vec![words] };
            Recorded { due, file: stood }
        }
        Ok(hands) => append(stood.unwrap_or_default(), &hands),
    }
}

/// Each hand has its line; one that is 28 has no block, and those beside it are written.
fn append(mut file: Vec<u8>, hands: &[Typed]) -> Recorded {
    let mut out = String::new();
    for hand in hands {
        let (blocks, number) = match hand.image() {
            Ok(image) => {
                file.extend(&image);
                (image.len() / BYTES, 0)
            }
            Err(number) => (0, number),
        };
        out += &format!("{} {blocks} {number}\n", hand.key);
    }
    Recorded { due: done(out), file: Some(file) }
}
