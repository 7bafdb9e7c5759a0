//! Each refusal that a script can reach, at both sides where it has two, and in
//! document 01's order. 25 is in `forms`, 26 in `limits`, 19 in `keys`.

use crate::scripts::written::Case;

pub fn all() -> Vec<Case> {
    let mut cases = builds();
    cases.extend(kept_tables());
    cases.extend(bets());
    cases.extend(at_large_amounts());
    cases.extend(full_counters());
    cases.extend(settlements());
    cases
}

/// Lines, each with LF.
fn case(what: &str, lines: &[&str]) -> Case {
    Case::new(what, lines.iter().map(|line| format!("{line}\n")).collect::<String>())
}

fn builds() -> Vec<Case> {
    vec![
        case("4: the dealer at and below n", &["t 2 10 5 0 100 100", "t 1 10 5 0 100 100", "n"]),
        case(
            "4: dealers of a table of 16",
            &[
                "t 16 10 5 0 1 1 1 1 1 1 1 1 1 1 1 1 1 1 1 1",
                "t 65535 10 5 0 1 1 1 1 1 1 1 1 1 1 1 1 1 1 1 1",
                "t 15 10 5 0 1 1 1 1 1 1 1 1 1 1 1 1 1 1 1 1",
                "n",
            ],
        ),
        case("4: a dealer of 256, which is 0 in 8 bits", &["t 0 10 5 0 9 9", "t 256 10 5 0 9 9"]),
        case("5: a big blind of 0 and of 1", &["t 0 0 5 0 100 100", "t 0 1 5 0 100 100"]),
        case(
            "9: no stack, one and two above 0",
            &[
                "t 0 10 5 0 0 0",
                "t 0 10 5 0 100 0",
                "t 0 10 5 0 0 100",
                "t 0 10 5 0 0 0 1 0",
                "t 0 10 5 0 1 0 1 0",
                "n",
                "n",
                "n",
            ],
        ),
        case(
            "3 before 5, 5 before 9, 9 before 4",
            &[
                "t 9 0 5 0 0",
                "t 9 0 5 0 0 0 0 0 0 0 0 0 0 0 0 0 0 0 0 0 0",
                "t 9 0 5 0 0 1",
                "t 9 10 5 0 0 1",
                "t 9 10 5 0 1 1",
                "t 1 10 5 0 1 1",
            ],
        ),
    ]
}

fn kept_tables() -> Vec<Case> {
    let played = ["t 1 10 5 0 100 100 100", "n", "n", "n", "p 5", "p 10", "b 30"];
    let refused = ["t 0 10 5 0", "t 9 10 5 0 1 1", "t 0 0 5 0 1 1", "t 0 10 5 0 0 1", "t 0 10 5"];
    let mut cases: Vec<Case> = refused
        .iter()
        .map(|&line| {
            let what = format!("a refused table keeps the one that stands: {line}");
            case(&what, &[&played[..], &[line, "b 30", line, "f"]].concat())
        })
        .collect();
    cases.push(case(
        "a new table begins anew",
        &[
            &played[..],
            &["t 0 20 10 0 50 60", "n", "n", "n", "p 10", "p 20", "b 20", "b 20", "x", "w 1 2"],
        ]
        .concat(),
    ));
    cases
}

fn bets() -> Vec<Case> {
    // Seat 0 has the small blind of 5 in, seat 1 the big blind of 10.
    let blinds = ["t 0 10 5 0 100 100", "n", "n", "n", "p 5", "p 10"];
    let after = |what: &str, lines: &[&str]| case(what, &[&blinds[..], lines].concat());
    // Seat 0 has only 12 chips.
    let short = ["t 0 10 5 0 12 100 100", "n", "n", "n", "p 5", "p 10"];
    let shorted = |what: &str, lines: &[&str]| case(what, &[&short[..], lines].concat());
    vec![
        after("15: below the seat's own bet and at it", &["b 4", "b 5", "b 0", "b 10"]),
        after("16: below the bet and at it", &["b 9", "b 6", "b 10"]),
        after("17: below the smallest raise and at it", &["b 11", "b 19", "b 20"]),
        after(
            "17: the smallest raise grows with the last one",
            &["b 35", "b 59", "b 60", "b 84", "b 85"],
        ),
        after("all in by the largest number", &["b 65535", "b 65535", "x", "w 1 0"]),
        after("all in by exactly the stack, and one less", &["b 99", "b 100", "b 100"]),
        after(
            "a check, and one below it",
            &["b 10", "b 9", "b 10", "n", "b 0", "b 9", "b 10", "b 19", "b 20"],
        ),
        shorted(
            "P7: all in for less than a raise is taken, and the smallest raise stays",
            &["b 12", "b 21", "b 22"],
        ),
        case(
            "all in for less than the bet is taken",
            &["t 0 10 5 0 100 100 7", "n", "n", "n", "p 5", "p 10", "b 50", "b 50", "b 50"],
        ),
        case(
            "a raise of four is taken: the cap is only reported",
            &[
                "t 0 10 5 0 2000 2000",
                "n",
                "n",
                "n",
                "p 5",
                "p 10",
                "b 20",
                "b 30",
                "b 40",
                "b 50",
                "b 60",
                "b 70",
            ],
        ),
        case(
            "a blind above the stack is all in",
            &["t 0 10 5 0 3 4 50", "n", "n", "n", "p 5", "p 10", "b 10", "x", "w 3 2 1"],
        ),
        case(
            "forced bets of every size",
            &[
                "t 0 10 5 0 100 100 100",
                "p 0",
                "p 1",
                "p 99",
                "p 100",
                "p 65535",
                "p 98",
                "p 2",
                "p 1",
                "p 0",
            ],
        ),
        case(
            "antes of all, then the blinds",
            &[
                "t 2 10 5 3 100 2 3 100",
                "n",
                "p 3",
                "p 3",
                "p 3",
                "p 3",
                "n",
                "n",
                "p 5",
                "p 10",
                "b 10",
                "b 10",
            ],
        ),
        case(
            "a bet by a seat that folded, when nobody owes",
            &[
                "t 0 10 5 0 100 100",
                "f",
                "f",
                "b 0",
                "b 10",
                "b 20",
                "p 5",
                "x",
                "p 7",
                "f",
                "b 30",
            ],
        ),
        case(
            "after Complete nothing moves on",
            &["t 0 10 5 0 9 9 9", "x", "n", "x", "n", "f", "p 1", "n"],
        ),
        case(
            "two seats: the dealer is first at Preflop alone",
            &["t 1 10 5 0 9 9", "n", "n", "n", "n", "n", "n", "n", "n", "n", "n", "n", "n"],
        ),
        case(
            "three seats, one without chips: no turn is passed twice",
            &["t 0 10 5 0 9 0 9", "n", "n", "n", "p 5", "p 9", "n"],
        ),
    ]
}

/// Where the tolerance passes a chip.
fn at_large_amounts() -> Vec<Case> {
    // Both seats bet so much, and the next bet is seat 0's.
    let level = |what: &str, bet: u16, tries: &[u16]| {
        let mut lines =
            vec![format!("t 0 {bet} 0 0 65535 65535"), format!("p {bet}"), format!("p {bet}")];
        lines.extend(tries.iter().map(|x| format!("b {x}")));
        let lines: Vec<&str> = lines.iter().map(String::as_str).collect();
        case(what, &lines)
    };
    vec![
        level("P9: 1,000 less one is 15", 1000, &[999, 998, 1000]),
        level("8,000 less one is 15", 8000, &[7999, 8000]),
        level("8,385 less one is taken, as the sum is rounded", 8385, &[8384, 8383]),
        level("8,388 and 8,389 less one", 8389, &[8387, 8388, 8388]),
        level(
            "P8: 10,000 less one is taken and the pot falls",
            10000,
            &[9998, 9999, 9999, 9998, 10000],
        ),
        level("65,535 less seven and less eight", 65535, &[65527, 65528, 65535]),
        level("60,000: the smallest raise less seven", 30000, &[59990, 59992, 59993, 60000]),
        level(
            "a rise within the tolerance is no raise",
            20000,
            &[20003, 20002, 20010, 20000, 20002],
        ),
    ]
}

fn full_counters() -> Vec<Case> {
    let repeated = |what: &str, line: &str, count: usize, then: &str| {
        let lines = line.repeat(count);
        Case::new(what, format!("t 0 10 5 0 65535 65535 5\n{lines}{then}"))
    };
    let checks = "f\np 0\nb 0\nn\nb 0\np 10\n";
    // After the last forced bet the seat to act has 124 in, and the bet is 174.
    let each = "b 123\nb 173\nb 175\nb 174\nb 224\nb 65535\np 1\nn\nb 0\n";
    vec![
        repeated("21: 256 checks, and a new round counts anew", "b 0\n", 256, checks),
        repeated("21: 256 forced bets of 0", "p 0\n", 256, "b 0\nx\nb 0\n"),
        repeated("15, 16 and 17 before 21", "p 1\n", 254, &format!("p 50\n{each}")),
        Case::new("21: 255 raises", raises()),
    ]
}

/// Raises by turns, each the smallest, until the counter is full.
fn raises() -> String {
    let mut script = "t 0 10 0 0 65535 65535\n".to_string();
    for raise in 1..=258 {
        script.push_str(&format!("b {}\n", 10 * raise));
    }
    script + "n\nb 0\n"
}

fn settlements() -> Vec<Case> {
    vec![
        case(
            "22: everyone folded",
            &["t 0 10 5 0 100 100", "p 5", "p 10", "f", "f", "w 1 2", "w 1 2"],
        ),
        case(
            "22: everyone folded, and nothing in the pot",
            &["t 0 10 5 0 9 9 9", "f", "f", "f", "w 1 2 3"],
        ),
        case(
            "22 is not for a seat left, nor for one all in",
            &["t 0 10 5 0 100 5", "p 5", "p 10", "f", "w 0 0", "p 65535"],
        ),
        case(
            "23: 8,000 chips and 8,001",
            &[
                "t 0 10 5 0 4000 4000",
                "p 5",
                "p 10",
                "w 1 2",
                "t 0 10 5 0 4000 4001",
                "p 5",
                "p 10",
                "w 1 2",
            ],
        ),
        case(
            "23: a stack of 8,000 and one of 8,001",
            &[
                "t 0 10 5 0 7999 1",
                "w 1 2",
                "t 0 10 5 0 8000 1",
                "w 1 2",
                "t 0 10 5 0 8001 1",
                "w 1 2",
            ],
        ),
        case("23: one chip above 8,000, in the pot", &["t 0 10 5 0 8000 1", "p 0", "p 1", "w 1 2"]),
        case(
            "23: the largest stacks",
            &["t 0 10 5 0 65535 65535", "b 65535", "b 65535", "x", "w 1 2"],
        ),
        case("23 before 22", &["t 0 10 5 0 4000 4001", "f", "f", "w 1 2"]),
        case(
            "24 before 23: what is paid stands beside the pot",
            &["t 0 10 5 0 4000 4000", "b 4000", "b 4000", "x", "w 2 1", "w 2 1", "w 1 2"],
        ),
        case("24 before 22", &["t 0 10 5 0 50 50", "p 5", "p 10", "w 2 1", "f", "f", "w 2 1"]),
        case(
            "24: settled twice, and a new table in between",
            &[
                "t 0 10 5 0 50 50",
                "p 5",
                "p 10",
                "w 2 1",
                "w 2 1",
                "t 0 10 5 0 50 50",
                "p 5",
                "w 2 1",
                "w 2 1",
            ],
        ),
        case(
            "a pot of 0 is settled as often as one likes",
            &["t 0 10 5 0 50 50", "w 2 1", "w 0 0", "x", "w 1 2", "p 5", "w 1 2", "w 1 2"],
        ),
        case(
            "25 before 24: the count of ranks",
            &["t 0 10 5 0 50 50", "p 5", "w 2 1", "w 2", "w 2 1 0", "w 2 1"],
        ),
        case(
            "any round may be settled",
            &[
                "t 0 10 5 0 50 50 50",
                "p 5",
                "w 1 1 1",
                "t 0 10 5 0 50 50 50",
                "n",
                "n",
                "n",
                "p 5",
                "p 10",
                "w 1 1 1",
            ],
        ),
    ]
}
