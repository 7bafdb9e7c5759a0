//! Holds docs/DIFFERENCES.md and the replayed lists to each other: each difference has its
//! smallest input, with the answer that the page gives under "Here", where the page says.

use std::fs;

use lists::line::Line;
use lists::table::{MAX_SEATS, Table, place};

fn read(path: &str) -> String {
    let root = concat!(env!("CARGO_MANIFEST_DIR"), "/../..");
    fs::read_to_string(format!("{root}/{path}")).unwrap_or_else(|error| panic!("{path}: {error}"))
}

/// The cases of D1 to D35 in this order, line by line.
fn cases() -> Vec<Vec<String>> {
    let cases = [sets_and_lists(), records(), floats(), refusals(), places(), sizes(), inside()];
    cases.into_iter().flatten().collect()
}

fn plain(lines: &[&str]) -> Vec<String> {
    lines.iter().map(|line| line.to_string()).collect()
}

/// A word of a table: its place, and what stands there.
type Word = (usize, u32);

fn table(words: &[Word]) -> Table {
    let mut table = Table::ZEROS;
    words.iter().for_each(|&(place, word)| table.words[place] = word);
    table
}

/// A line that ends with these words.
fn ends(line: &str, words: &[Word]) -> String {
    format!("{line}{}", &Line::new(' ').new_table(&table(words)).text()[1..])
}

/// Round data of these words, and the lines after it.
fn data(words: &[Word], lines: &[&str]) -> Vec<String> {
    let smallest_raise = (place::MIN_RAISE, 1.0_f32.to_bits());
    let loaded = ends("L", &[words, &[smallest_raise]].concat());
    [loaded].into_iter().chain(plain(lines)).collect()
}

/// D1 to D8.
fn sets_and_lists() -> Vec<Vec<String>> {
    let one = (place::ROUND_LENGTH, 1);
    let full = |counter, line| data(&[one, (counter, 255)], &[line]);
    let owing = [(place::STARTING_PLAYER_ACTIVE, 1), (place::NEEDS_ACTION, 1)];
    let beyond = [owing[0], owing[1], (place::TO_ACT_IDX, 15), (place::ROUND_LENGTH, 17)];
    let counters = [
        full(place::TOTAL_BET_COUNT, "b 00000000 0 ! 21"),
        full(place::TOTAL_RAISE_COUNT, "b 3f800000 0 ! 21"),
        full(place::FORCED_BET_COUNT, "b 00000000 1 ! 21"),
    ];
    vec![
        plain(&["n 17 ! 3"]),
        plain(&["e 0 16 ! 20", "d 0 16 ! 20", "g 0 16 ! 20"]),
        data(&[], &["w ! 19"]),
        data(&[], &["b 00000000 0 ! 19", "q ! 19"]),
        data(&[(place::TO_ACT_IDX, 1), one], &["b 00000000 0 ! 19", "q ! 19"]),
        data(&beyond, &["w ! 19"]),
        data(&[(place::TO_ACT_IDX, u32::MAX), one], &["w ! 19"]),
        counters.concat(),
    ]
}

/// "The table" with some words changed, and the lines after it.
fn on(letter: char, changes: &[Word], lines: &[&str]) -> Vec<String> {
    let (blind, half, stack) = (10.0_f32.to_bits(), 5.0_f32.to_bits(), 100.0_f32.to_bits());
    let the_table = [
        (place::NUM_PLAYERS, 2),
        (place::PLAYER_ACTIVE, 0b11),
        (place::STARTING_PLAYER_ACTIVE, 0b11),
        (place::NEEDS_ACTION, 0b11),
        (place::ROUND_LENGTH, 2),
        (place::HAS_CAP, 1),
        (place::CAP, 3),
        (place::BIG_BLIND, blind),
        (place::SMALL_BLIND, half),
        (place::MIN_RAISE, blind),
        (place::STACKS, stack),
        (place::STACKS + 1, stack),
        (place::STARTING_STACKS, stack),
        (place::STARTING_STACKS + 1, stack),
    ];
    let loaded = ends(&letter.to_string(), &[&the_table, changes].concat());
    [loaded].into_iter().chain(plain(lines)).collect()
}

/// D9 to D15.
fn records() -> Vec<Vec<String>> {
    let full = [
        on('T', &[(place::TOTAL_BET_COUNT, 255)], &["b 00000000 ! 21"]),
        on('T', &[(place::TOTAL_RAISE_COUNT, 255)], &["b 41200000 ! 21"]),
        on('T', &[(place::FORCED_BET_COUNT, 255)], &["p 00000000 ! 21"]),
    ];
    let endless = [plain(&["N 1 3f800000 2 0 ! 19"]), data(&OWING_OUTSIDE, &["w ! 19"])];
    let outside = [
        on('U', &[(place::NEEDS_ACTION, 0b101)], &["f ! 19"]),
        on('U', &[(place::PLAYER_ACTIVE, 0b100)], &["n ! 19"]),
    ];
    vec![
        full.concat(),
        on('U', &[(place::TO_ACT_IDX, 2)], &["b 41200000 ! 19"]),
        on('U', &[(place::TO_ACT_IDX, 16)], &["f ! 19"]),
        on('U', &[(place::NUM_PLAYERS, 0)], &["n ! 19"]),
        on('T', &[], &["w 2 3f800000 ! 20", "v 2 ! 20"]),
        endless.concat(),
        outside.concat(),
    ]
}

/// Round data of one bet, and a second seat that owes.
const OWING_OUTSIDE: [Word; 3] =
    [(place::STARTING_PLAYER_ACTIVE, 0b10), (place::NEEDS_ACTION, 0b10), (place::ROUND_LENGTH, 1)];

/// D16 to D18.
fn floats() -> Vec<Vec<String>> {
    let zeros = [
        "x 00000000 80000000 = 00000000",
        "x 80000000 00000000 = 80000000",
        "m 00000000 80000000 = 00000000",
        "m 80000000 00000000 = 80000000",
    ];
    let infinity = f32::INFINITY.to_bits();
    let infinite = [(place::STACKS, infinity), (place::STARTING_STACKS, infinity)];
    vec![plain(&zeros), plain(&["s ffc00000 = 0"]), on('T', &infinite, &["v 0 = 7fc00000"])]
}

/// D19 to D27.
fn refusals() -> Vec<Vec<String>> {
    let build = "b S 2 42c80000 42c80000 G 41200000 - - - -";
    let bets = " 00000000".repeat(17);
    let some_owe = [
        (place::STARTING_PLAYER_ACTIVE, 0b110),
        (place::NEEDS_ACTION, 0b110),
        (place::ROUND_LENGTH, 2),
    ];
    vec![
        vec![format!("{build} - C 3 0 1 52 - - - ! 18")],
        vec![format!("{build} - - - - Q 3 3 41200000 00000000 0 0 0 2 2 00000000 00000000 ! 19")],
        plain(&["N 0 3f800000 0 0 ! 19", "B 3f800000 0 0 0 ! 19"]),
        vec![format!("B 3f800000 0 0 17{bets} ! 19")],
        data(&OWING_OUTSIDE, &["q ! 19"]),
        data(&OWING_OUTSIDE, &["b 3f800000 0 ! 19"]),
        data(&some_owe, &["w ! 19"]),
        data(&[(place::TO_ACT_IDX, 1), (place::ROUND_LENGTH, 1)], &["w ! 19"]),
        unsound(),
    ]
}

/// The rows below D27.
fn unsound() -> Vec<String> {
    let seat = (place::TO_ACT_IDX, 2);
    let dealer = (place::DEALER_IDX, 2);
    let all_in = (place::PLAYER_ALL_IN, 0b100);
    let long = (place::ROUND_LENGTH, 3);
    let chips = 20.0_f32.to_bits();
    let cards = (1..5).map(|card| (place::BOARD + card, card as u32));
    let board: Vec<Word> = cards.chain([(place::BOARD_LENGTH, 6)]).collect();
    let rows = [
        on('U', &[seat], &["f ! 19"]),
        on('U', &[dealer], &["n ! 19"]),
        on('U', &[dealer], &["x ! 19"]),
        on('U', &[dealer, (place::ROUND, 11)], &["n ! 19", "x ! 19"]),
        on('U', &[(place::NUM_PLAYERS, 1)], &["n ! 19"]),
        on('U', &[long], &["b 41200000 ! 19"]),
        on('U', &[all_in], &["b 41200000 ! 19"]),
        on('U', &board, &["b 41200000 ! 19"]),
        on('U', &[all_in], &["w 0 3f800000 ! 19", "v 0 ! 19"]),
        on('U', &[seat], &["b 80000000 ! 19", "b 7fc00000 ! 19"]),
        on('U', &[all_in, (place::ROUND_BETS, chips)], &["b 41200000 ! 19"]),
        on('U', &[seat, long, (place::ROUND_BETS + 2, chips)], &["b 41200000 ! 19"]),
        on('U', &[all_in, (place::ROUND_BET, chips)], &["b 41200000 ! 19"]),
        on('U', &[all_in], &["b 40a00000 ! 19"]),
    ];
    rows.concat()
}

/// D28 to D31.
fn places() -> Vec<Vec<String>> {
    // The place with 7 is not among the changes, so it stays.
    let changed =
        [(place::PLAYER_ACTIVE, 0b10), (place::NEEDS_ACTION, 0b10), (place::TO_ACT_IDX, 1)];
    let folded = ends("f = 1", &changed);
    let seven = (place::STACKS + 2, 7.0_f32.to_bits());
    let (stack, won) = ((place::STACKS, 101.0_f32.to_bits()), (place::WINNINGS, 1.0_f32.to_bits()));
    let awarded = ends("w 0 3f800000 = 0", &[stack, won]);
    let bets = (0..MAX_SEATS).map(|seat| (place::ROUND_BETS + seat, 5.0_f32.to_bits()));
    let seventeen: Vec<Word> = bets.chain([(place::ROUND_LENGTH, 17)]).collect();
    let queries = "q 16 = 0 2 0 0 0 42c80000 42c80000 40a00000 00000000 00000000 2 41200000";
    vec![
        on('T', &[seven], &[&folded]),
        on('T', &[(place::BOARD, 7)], &[&folded]),
        on('T', &[], &[&awarded]),
        on('U', &seventeen, &[queries]),
    ]
}

/// D32 to D34.
fn sizes() -> Vec<Vec<String>> {
    let too_many =
        ["N 2305843009213693952 3f800000 0 0 ! 19", "N 2305843009213693951 3f800000 0 0 ! 19"];
    vec![
        plain(&too_many),
        on('U', &[(place::NUM_PLAYERS, u32::MAX)], &["n ! 19", "x ! 19"]),
        plain(&["b W 2305843009213693952 42c80000 G 41200000 - - - - - - - - - ! 3"]),
    ]
}

/// D35, row by row.
fn inside() -> Vec<Vec<String>> {
    let seventeen = (place::ROUND_LENGTH, 17);
    let seats = (place::NUM_PLAYERS, 17);
    let last = [seats, (place::DEALER_IDX, 15), (place::PLAYER_ACTIVE, 0b1)];
    let rows = [
        on('U', &[(place::ROUND_LENGTH, 0)], &["f ! 19"]),
        on(
            'U',
            &[(place::TO_ACT_IDX, 1), (place::ROUND_LENGTH, 1)],
            &["b 41200000 ! 19", "p 41200000 ! 19"],
        ),
        on('U', &[(place::TO_ACT_IDX, 1), seventeen], &["f ! 19", "b 00000000 ! 19"]),
        on('U', &last, &["n ! 19"]),
        on('U', &[(place::DEALER_IDX, u32::MAX)], &["n ! 19"]),
        on('U', &[seats, (place::TO_ACT_IDX, 16), seventeen], &["b 00000000 ! 19"]),
    ];
    vec![rows.concat()]
}

/// What the page says of each difference, by its number: the number, and where its case stands,
/// a kind and a line. That is a row's last cell, or what follows "In a list: " below a paragraph.
fn told(page: &str) -> Vec<(usize, String)> {
    let mut told = Vec::new();
    let mut number = 0;
    for line in page.lines() {
        let begun = begun(line);
        number = begun.unwrap_or(number);
        let place = match line.strip_suffix(" |") {
            Some(row) if begun.is_some() => row.rsplit(" | ").next(),
            _ => line.split_once("In a list: ").map(|(_, place)| place.trim_end_matches('.')),
        };
        told.extend(place.map(|place| (number, place.to_string())));
    }
    told.sort();
    told
}

/// The number of the difference that a line begins.
fn begun(line: &str) -> Option<usize> {
    let line = line.strip_prefix("| ").unwrap_or(line).strip_prefix('D')?;
    line.split_once([' ', '.'])?.0.parse().ok()
}

#[test]
fn each_difference_has_its_case_where_the_page_says() {
    let told = told(&read("docs/DIFFERENCES.md"));
    let cases = cases();
    let numbers: Vec<usize> = told.iter().map(|&(number, _)| number).collect();
    assert_eq!(numbers, (1..=cases.len()).collect::<Vec<_>>());
    for ((number, place), case) in told.iter().zip(cases) {
        let (kind, line) = place.split_once(' ').expect("a kind and a line");
        let first = line.parse::<usize>().expect("a line") - 1;
        let list = read(&format!("crates/replay/data/{kind}"));
        let there: Vec<&str> = list.lines().skip(first).take(case.len()).collect();
        assert_eq!(there, case, "D{number}, {place}");
    }
}
