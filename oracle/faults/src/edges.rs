//! Scripts whose hands lie on an edge of the words.

use lists::scripts::written::Case;

const TABLE: &str = "t 0 10 5 0 100 100";
/// 25, 3, 5, 9, 4.
const REFUSED: [&str; 5] =
    ["t 0 10 5", "t 0 10 5 0 9", "t 0 0 5 0 9 9", "t 0 10 5 0 0 9", "t 2 10 5 0 9 9"];

/// Lines, each with LF.
fn case(what: &str, lines: &[&str]) -> Case {
    Case::new(what, lines.iter().map(|line| format!("{line}\n")).collect::<String>())
}

pub fn all() -> Vec<Case> {
    let mut cases = none();
    cases.extend(keys());
    cases.extend(tables());
    cases.extend(lengths());
    cases.extend(letters());
    cases
}

/// Scripts without a hand.
fn none() -> Vec<Case> {
    vec![
        case("nothing", &[]),
        case("an empty line", &[""]),
        case("keys alone", &["k 3 2026 1", "k 3 2026 2"]),
        case("no table is accepted", &[&["k 3 2026 1", "n", "w"][..], &REFUSED, &["x"]].concat()),
        case("a bad key alone", &["k 5 0 0", TABLE, "n"]),
        case("lines that end with CR", &["k 3 2026 1\r", "t 0 10 5 0 100 100\r", "n\r"]),
    ]
}

fn keys() -> Vec<Case> {
    vec![
        case("several keys", &["k 3 2026 1", TABLE, "n", "k 4 2026 1", TABLE, "k 3 2027 1", TABLE]),
        case("one key twice", &["k 3 2026 1", TABLE, "n", "k 3 2026 1", TABLE, "x"]),
        case(
            "one key three times, another between",
            &["k 3 2026 1", TABLE, "k 3 2026 2", TABLE, "k 3 2026 1", TABLE, "k 3 2026 1", TABLE],
        ),
        case("the largest key", &["k 65535 65535 65535", TABLE]),
        case("the smallest key", &["k 0 1 0", TABLE]),
        case(
            "hand 65535, then 65536, which is no key",
            &["k 3 2026 65535", "k 3 2026 65536", TABLE],
        ),
        case(
            "a key in mid-hand is the next hand's",
            &["k 3 2026 1", TABLE, "k 3 2026 2", "n", TABLE, "x"],
        ),
        case(
            "two keys in mid-hand",
            &["k 3 2026 1", TABLE, "k 3 2026 2", "n", "k 3 2026 3", TABLE],
        ),
        case(
            "a key cleared in mid-hand",
            &["k 3 2026 1", TABLE, "k 3 2026 2", "k 0 0 0", "n", TABLE],
        ),
        case("a key behind the last hand", &["k 3 2026 1", TABLE, "n", "k 3 2026 2"]),
        case("no key at all", &[TABLE, "n", TABLE, "x"]),
        case("no key between two", &["k 3 2026 1", TABLE, TABLE, "n", "k 3 2026 3", TABLE, "x"]),
    ]
}

fn tables() -> Vec<Case> {
    let among = |line: &&str| {
        let lines = ["k 3 2026 1", TABLE, "k 3 2026 2", line, "n", TABLE, "x"];
        case(&format!("refused, and the hand goes on: {line}"), &lines)
    };
    let mut cases: Vec<Case> = REFUSED.iter().map(among).collect();
    cases.extend([
        case(
            "19, and the hand goes on",
            &["k 3 2026 1", TABLE, "k 5 0 0", TABLE, "n", "k 3 2026 2", TABLE],
        ),
        Case::new(
            "a table as the last line, without LF",
            format!("k 3 2026 1\n{TABLE}\nn\nk 3 2026 2\n{TABLE}"),
        ),
        Case::new("a line without LF at the end", format!("k 3 2026 1\n{TABLE}\nn")),
    ]);
    cases
}

/// A table of seven entries, and so many in all.
fn long(entries: usize) -> String {
    format!("k 3 2026 1\n{TABLE}\n{}", "x\n".repeat(entries - 7))
}

fn lengths() -> Vec<Case> {
    let behind = format!("k 3 2026 2\n{TABLE}\n");
    let mut cases: Vec<Case> = [119, 120, 121, 240, 241, 30_600, 30_601]
        .map(|entries| Case::new(format!("{entries} entries"), long(entries) + &behind))
        .into();
    for bytes in [65_536, 65_537] {
        let text = format!("{behind}{}", "x\n".repeat(100));
        let filled = text.clone() + &"\n".repeat(bytes - text.len());
        cases.push(Case::new(format!("{bytes} bytes"), filled));
    }
    cases
}

fn letters() -> Vec<Case> {
    let numbers = |number: usize| format!(" {number}").repeat(16);
    let all = format!(
        "k 3 2026 1\nt 15 10 5 1 {}\nn\np 1\nb 1\nn\nn\nn\np 5\np 10\nb 20\nb 15\nf\nx\nw{}\nw{}\n",
        numbers(400).trim_start(),
        numbers(65_535),
        numbers(0)
    );
    vec![
        Case::new("every letter at a table of 16", all),
        case(
            "refused lines are left out",
            &["k 3 2026 1", TABLE, "b 01", "", "w 1", "p 5", "b 1", "w 0 0", "w 0 0"],
        ),
    ]
}
