//! "An entry is the script letter and three zero bytes, or two zero bytes and a 16-bit number."

/// Four bytes, which may be an entry.
pub type Four = [u8; 4];

/// The letters of a hand. `k` is none of them: it "lives in the key".
pub const LETTERS: &[u8] = b"tnfbpxw";

#[derive(Clone, Copy, PartialEq, Eq, Debug)]
pub enum Entry {
    Letter(u8),
    Number(u16),
}

impl Entry {
    /// None where the bytes are no entry. Four zero bytes are the number 0.
    pub fn of(bytes: Four) -> Option<Self> {
        match bytes {
            [letter, 0, 0, 0] if LETTERS.contains(&letter) => Some(Entry::Letter(letter)),
            [0, 0, low, high] => Some(Entry::Number(u16::from_le_bytes([low, high]))),
            _ => None,
        }
    }

    pub fn bytes(self) -> Four {
        match self {
            Entry::Letter(letter) => [letter, 0, 0, 0],
            Entry::Number(number) => {
                let [low, high] = number.to_le_bytes();
                [0, 0, low, high]
            }
        }
    }
}

/// The entries that some bytes are, if all of them are.
pub fn all(fours: &[Four]) -> Option<Vec<Entry>> {
    fours.iter().map(|&four| Entry::of(four)).collect()
}
