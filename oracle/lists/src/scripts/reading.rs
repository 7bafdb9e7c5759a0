//! A line of a script, by the words of document 01: "a letter, then numbers, one
//! space before each; a number is 0 to 65,535 without leading zeros". The line `k` is
//! document 02's.

use crate::key::Key;

/// What a line asks for. Whether the count of ranks fits is for the table to say.
#[derive(Debug, PartialEq)]
pub enum Ask {
    Table { dealer: u16, big_blind: u16, small_blind: u16, ante: u16, stacks: Vec<u16> },
    Advance,
    Fold,
    Bet(u16),
    Forced(u16),
    Complete,
    Settle(Vec<u16>),
    Key(Key),
}

/// The lines of a script: each ends with LF, and the last may lack it.
pub fn lines(script: &[u8]) -> impl Iterator<Item = &[u8]> {
    script
        .split_inclusive(|&byte| byte == b'\n')
        .map(|line| line.strip_suffix(b"\n").unwrap_or(line))
}

/// None where the line is not of the form.
pub fn read(line: &[u8]) -> Option<Ask> {
    let (letter, rest) = line.split_first()?;
    let numbers = numbers(rest)?;
    match (letter, numbers.as_slice()) {
        (b't', [dealer, big_blind, small_blind, ante, stacks @ ..]) => Some(Ask::Table {
            dealer: *dealer,
            big_blind: *big_blind,
            small_blind: *small_blind,
            ante: *ante,
            stacks: stacks.to_vec(),
        }),
        (b'n', []) => Some(Ask::Advance),
        (b'f', []) => Some(Ask::Fold),
        (b'b', [amount]) => Some(Ask::Bet(*amount)),
        (b'p', [amount]) => Some(Ask::Forced(*amount)),
        (b'x', []) => Some(Ask::Complete),
        (b'w', _) => Some(Ask::Settle(numbers)),
        (b'k', [code, year, hand]) => Some(Ask::Key(Key::new(*code, *year, (*hand).into()))),
        _ => None,
    }
}

/// Takes " NUMBER" from the front until nothing is left.
fn numbers(mut rest: &[u8]) -> Option<Vec<u16>> {
    let mut found = Vec::new();
    while !rest.is_empty() {
        let after_space = rest.strip_prefix(b" ")?;
        let digits = after_space.iter().take_while(|byte| byte.is_ascii_digit()).count();
        let (digits, tail) = after_space.split_at(digits);
        found.push(number(digits)?);
        rest = tail;
    }
    Some(found)
}

/// Of digits alone; they are too many for a number long before they are too many for Rust.
fn number(digits: &[u8]) -> Option<u16> {
    if digits.len() > 1 && digits[0] == b'0' {
        return None;
    }
    std::str::from_utf8(digits).ok()?.parse().ok()
}

#[cfg(test)]
mod tests {
    use super::{Ask, Key, lines, read};

    #[test]
    fn a_last_line_may_lack_its_end() {
        assert_eq!(lines(b"").count(), 0);
        assert_eq!(lines(b"\n").collect::<Vec<_>>(), [b""]);
        assert_eq!(lines(b"n\nf").collect::<Vec<_>>(), [b"n", b"f"]);
        assert_eq!(lines(b"n\nf\n").collect::<Vec<_>>(), [b"n", b"f"]);
    }

    #[test]
    fn numbers_stand_after_one_space_each() {
        assert_eq!(read(b"b 65535"), Some(Ask::Bet(65535)));
        assert_eq!(read(b"w"), Some(Ask::Settle(vec![])));
        for bad in
            ["", "b", "b ", "b  1", "b 1 ", " b 1", "b 01", "b 65536", "b +1", "b -0", "n 0", "N"]
        {
            assert_eq!(read(bad.as_bytes()), None, "{bad:?}");
        }
    }

    #[test]
    fn a_key_has_three_numbers_and_may_be_bad() {
        assert_eq!(read(b"k 3 2026 7"), Some(Ask::Key(Key::new(3, 2026, 7))));
        assert_eq!(read(b"k 5 0 0"), Some(Ask::Key(Key::new(5, 0, 0))));
        for bad in ["k", "k 3", "k 3 2026", "k 3 2026 7 0", "k 3 2026 65536", "K 3 2026 7"] {
            assert_eq!(read(bad.as_bytes()), None, "{bad:?}");
        }
    }

    #[test]
    fn a_table_has_four_numbers_and_any_count_of_stacks() {
        assert_eq!(read(b"t 0 10 5"), None);
        assert!(
            matches!(read(b"t 0 10 5 0"), Some(Ask::Table { stacks, .. }) if stacks.is_empty())
        );
    }
}
