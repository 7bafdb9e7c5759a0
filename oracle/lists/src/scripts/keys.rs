//! The line `k` of document 02: its form, what the next table takes of it, and when it is used up. The key that a
//! table carries is not printed: a case tells that of the table at its end.

use crate::scripts::written::Case;

const TABLE: &str = "t 0 10 5 0 100 100";
/// 25, 3, 5, 9, 4.
const REFUSED: [&str; 5] =
    ["t 0 10 5", "t 0 10 5 0 9", "t 0 0 5 0 9 9", "t 0 10 5 0 0 9", "t 2 10 5 0 9 9"];
const HAND: [&str; 10] = [TABLE, "n", "n", "n", "p 5", "p 10", "b 20", "f", "x", "w 0 0"];

/// Lines, each with LF.
fn case(what: &str, lines: &[&str]) -> Case {
    Case::new(what, lines.iter().map(|line| format!("{line}\n")).collect::<String>())
}

pub fn all() -> Vec<Case> {
    let mut cases = forms();
    cases.extend(taken());
    cases.extend(kept());
    cases.extend(bad_keys());
    cases.extend(steps());
    cases
}

fn forms() -> Vec<Case> {
    let good = ["k 3 2026 7", "k 0 0 0", "k 5 0 0", "k 65535 65535 65535", "k 0 1 0"];
    let bad = [
        "k",
        "k ",
        "k 3",
        "k 3 2026",
        "k 3 2026 ",
        "k 3 2026 7 ",
        "k 3 2026 7 1",
        "k 3 2026 65536",
        "k 3 65536 7",
        "k 65536 2026 7",
        "k 03 2026 7",
        "k 3 2026 -7",
        "k  3 2026 7",
        "k3 2026 7",
        " k 3 2026 7",
        "K 3 2026 7",
        "k 3 2026 7\r",
        "k\t3 2026 7",
    ];
    let beside = |line: &&str| {
        let what = format!("{line:?}, before a table, on it and as the last line");
        Case::new(what, format!("{line}\n{TABLE}\nn\n{line}\nn\n{line}"))
    };
    good.iter().chain(&bad).map(beside).collect()
}

fn taken() -> Vec<Case> {
    vec![
        case("a key is taken by the next table", &["k 3 2026 7", TABLE]),
        case("a later key takes the place of one", &["k 3 2026 7", "k 3 2027 7", TABLE]),
        case("k 0 0 0 clears it", &["k 3 2026 7", "k 0 0 0", TABLE]),
        case("an accepted table uses it up", &["k 3 2026 7", TABLE, TABLE]),
        case("a bad line leaves the key that stands", &["k 3 2026 7", "k 3 2027", TABLE]),
        case("a key in a hand is the next one's", &["k 3 2026 7", TABLE, "n", "k 3 2026 8", "n"]),
        case("the next hand takes it", &["k 3 2026 7", TABLE, "k 3 2026 8", "n", TABLE]),
        case(
            "two Januaries: the hand number again, another year",
            &["k 3 2026 1", TABLE, "x", "k 3 2027 1", TABLE, "x"],
        ),
    ]
}

/// A refused table uses nothing up, whatever its number is.
fn kept() -> Vec<Case> {
    let mut cases: Vec<Case> = REFUSED
        .iter()
        .map(|line| case(&format!("refused, the key stands: {line}"), &["k 3 2026 7", line, TABLE]))
        .collect();
    let all = [&["k 3 2026 7"][..], &REFUSED, &[TABLE]].concat();
    cases.push(case("refused one after the other, the key stands", &all));
    cases
}

fn bad_keys() -> Vec<Case> {
    let bad = ["k 5 0 0", "k 0 0 7", "k 5 0 7", "k 65535 0 65535"];
    let mut cases: Vec<Case> = bad
        .iter()
        .map(|line| case(&format!("19, and the key stands: {line}"), &[line, TABLE, TABLE, "n"]))
        .collect();
    cases.extend([
        case(
            "19 comes last: 25, 3, 5, 9, 4 before it",
            &[&["k 5 0 0"][..], &REFUSED, &[TABLE]].concat(),
        ),
        case(
            "19 keeps the table that stands, and its key",
            &["k 3 2026 7", TABLE, "n", "k 5 0 0", "t 1 20 10 0 50 50", "n"],
        ),
        case("a good key in the place of a bad one", &["k 5 0 0", TABLE, "k 5 2026 0", TABLE]),
    ]);
    cases
}

/// The table after each line of a hand.
fn steps() -> Vec<Case> {
    (1..=HAND.len())
        .map(|count| {
            let lines = [&["k 3 2026 7"][..], &HAND[..count]].concat();
            case(&format!("the key after line {count} of a hand, {}", HAND[count - 1]), &lines)
        })
        .collect()
}
