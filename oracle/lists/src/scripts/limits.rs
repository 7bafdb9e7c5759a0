//! The size limit at both sides, long lines and many of them.

use crate::scripts::player::MOST_BYTES;
use crate::scripts::written::Case;

const HAND: &str = "t 0 10 5 0 100 100\nn\nn\nn\np 5\np 10\nb 20\nf\nw 0 0\n";

pub fn all() -> Vec<Case> {
    let mut cases = Vec::new();
    for size in [MOST_BYTES - 1, MOST_BYTES, MOST_BYTES + 1, 2 * MOST_BYTES - 1] {
        cases.extend(of_size(size));
    }
    cases.extend(long_lines());
    cases.extend(many_lines());
    cases
}

/// Scripts of exactly so many bytes.
fn of_size(size: usize) -> Vec<Case> {
    let case = |what: &str, script: String| {
        assert_eq!(script.len(), size, "{what}");
        Case::new(format!("{size} bytes: {what}"), script)
    };
    let room = size - HAND.len();
    let few = 13;
    let lines = size / few;
    vec![
        case("one line of n with no LF", "n".repeat(size)),
        case("one line of spaces, and LF", " ".repeat(size - 1) + "\n"),
        case("a hand, and a long line with no LF", format!("{HAND}{}", "0".repeat(room))),
        case("a hand, and a long line with LF", format!("{HAND}{}\n", "n".repeat(room - 1))),
        case("a long line, and a hand", format!("{}\n{HAND}", "b".repeat(room - 1))),
        case("a bet with so many digits", format!("{HAND}b 1{}", "0".repeat(room - 3))),
        case("long lines", {
            let body = format!("{}\n", "7".repeat(lines - 1)).repeat(few);
            format!("{body}{}", "8".repeat(size - body.len()))
        }),
    ]
}

fn long_lines() -> Vec<Case> {
    let table = "t 0 10 5 0 100 100\n";
    let on_table = |what: &str, line: String| Case::new(what, format!("{table}{line}\nn\n{line}"));
    vec![
        on_table("b with 5,000 zeros", format!("b {}", "0".repeat(5000))),
        on_table("b with 5,000 zeros and 10", format!("b {}10", "0".repeat(5000))),
        on_table("b with 5,000 nines", format!("b {}", "9".repeat(5000))),
        on_table("b 10 with 5,000 spaces after it", format!("b 10{}", " ".repeat(5000))),
        on_table("w with 2,000 ranks", format!("w{}", " 0".repeat(2000))),
        on_table("w with 258 ranks, 2 in 8 bits", format!("w{}", " 0".repeat(258))),
        on_table("t with 262 numbers, 6 in 8 bits", format!("t 0 1 1 0{}", " 9".repeat(258))),
        on_table(
            "t with 2,000 stacks, the last of them bad",
            format!("t 0 1 1 0{} x", " 9".repeat(2000)),
        ),
    ]
}

fn many_lines() -> Vec<Case> {
    let table = "t 0 10 5 0 100 100\n";
    vec![
        Case::new("1,500 empty lines", "\n".repeat(1500)),
        Case::new(
            "1,200 rounds on, the last of them Complete",
            format!("{table}{}", "n\n".repeat(1200)),
        ),
        Case::new("folds, though nobody is left", format!("{table}{}", "f\n".repeat(40))),
    ]
}
