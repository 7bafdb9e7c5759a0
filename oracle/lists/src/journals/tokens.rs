//! Entries as a list has them: a letter is itself, a number decimal, and four other bytes are `:` and the eight hex
//! digits of the number that they spell, lowest byte first.

use crate::journal::entry::{Entry, Four};

pub fn token(four: Four) -> String {
    match (Entry::of(four), four) {
        (Some(Entry::Number(number)), _) => number.to_string(),
        (_, [letter, 0, 0, 0]) if letter.is_ascii_alphabetic() => char::from(letter).to_string(),
        _ => format!(":{:08x}", u32::from_le_bytes(four)),
    }
}

/// The entries that a text spells.
pub fn spell(text: &str) -> Vec<Four> {
    text.split_whitespace().map(four).collect()
}

fn four(token: &str) -> Four {
    if let Some(digits) = token.strip_prefix(':') {
        return u32::from_str_radix(digits, 16).expect("eight hex digits").to_le_bytes();
    }
    match token.as_bytes() {
        [letter] if letter.is_ascii_alphabetic() => [*letter, 0, 0, 0],
        _ => Entry::Number(token.parse().expect("a number of 16 bits")).bytes(),
    }
}

#[cfg(test)]
mod tests {
    use super::{spell, token};

    #[test]
    fn what_is_told_is_what_is_spelled() {
        let text = "t 0 10 65535 k T :00000100 :00010074 :00010001 :00000001 :0000ffff";
        let tokens: Vec<String> = spell(text).into_iter().map(token).collect();
        assert_eq!(tokens.join(" "), text);
        assert_eq!(spell("b 258"), [[b'b', 0, 0, 0], [0, 0, 2, 1]]);
        assert_eq!(spell(":01020304"), [[4, 3, 2, 1]]);
    }
}
