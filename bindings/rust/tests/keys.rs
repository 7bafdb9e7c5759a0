//! The key of a hand: a build takes it, every call leaves it, and nothing hangs on it.

mod common;
#[path = "common/words.rs"]
mod words;

use common::{assert_same, ours};
use lists::draw::Draw;
use lists::key::Key;
use lists::scripts::{drawn, player};
use lists::{key, play, tables};
use peatcloak::arena::action::AgentAction;
use peatcloak::arena::errors::{GameStateBuilderError, ScriptError};
use peatcloak::arena::{GameState, GameStateBuilder, HandKey};
use peatcloak::places::{FLOATS, GIVEN, NUMBERS, given, number};
use peatcloak::script::play_table;
use words::Words;

const KEY: HandKey = HandKey { code: 3, year: 2026, hand: 7 };

fn builder() -> GameStateBuilder {
    GameStateBuilder::new().stacks([100.0, 100.0, 100.0]).blinds(10.0, 5.0)
}

#[test]
fn a_table_has_the_key_that_it_was_built_with() {
    let most = HandKey { code: u16::MAX, year: u16::MAX, hand: u32::MAX };
    for key in [KEY, most, HandKey { code: 0, year: 1, hand: 0 }] {
        assert_eq!(builder().hand_key(key).build().expect("a table").hand_key(), Some(key));
    }
    let told_twice = builder().hand_key(most).hand_key(KEY);
    assert_eq!(told_twice.build().expect("a table").hand_key(), Some(KEY));
    for none in [builder(), builder().hand_key(HandKey::NONE)] {
        assert_eq!(none.build().expect("a table").hand_key(), None);
    }
    // Tables that differ in the key alone are not equal.
    let other = HandKey { year: 2027, ..KEY };
    for other in [builder(), builder().hand_key(other)] {
        assert_ne!(builder().hand_key(KEY).build(), other.build());
    }
}

#[test]
fn keys_go_by_code_then_by_year_then_by_hand() {
    let key = |code, year, hand| HandKey { code, year, hand };
    let ascending =
        [HandKey::NONE, key(0, 1, 0), KEY, key(3, 2026, 65_536), key(3, 2027, 1), key(4, 1, 0)];
    assert!(ascending.is_sorted_by(|a, b| a < b));
}

/// Builders with one fault each, a key apart, and their numbers.
fn faults() -> [(GameStateBuilder, u32); 14] {
    let new = GameStateBuilder::new;
    [
        (new().big_blind(10.0), 1),
        (new().stacks([100.0, 100.0]), 2),
        (builder().stacks([100.0]), 3),
        (builder().dealer_idx(3), 4),
        (builder().big_blind(0.0), 5),
        (builder().small_blind(-1.0), 6),
        (builder().ante(-1.0), 7),
        (builder().stacks([100.0, -1.0]), 8),
        (builder().stacks([100.0, 0.0]), 9),
        (builder().hands([(); 2]), 10),
        (builder().player_bet([0.0; 2]), 11),
        (builder().board([1, 2]), 12),
        (builder().board([1, 2, 1]), 13),
        (builder().board([1, 2, 52]), 18),
    ]
}

#[test]
fn year_0_beside_another_part_is_19_and_comes_last() {
    for (code, hand) in [(5, 0), (0, 7), (5, 7), (u16::MAX, u32::MAX)] {
        let bad = HandKey { code, year: 0, hand };
        assert_eq!(builder().hand_key(bad).build(), Err(GameStateBuilderError::BadRecord));
        for (builder, number) in faults() {
            let refused = builder.hand_key(bad).build().expect_err("two faults");
            assert_eq!(refused.number(), number);
        }
    }
}

#[test]
fn every_step_leaves_the_key_accepted_or_refused() {
    let mut table = builder().hand_key(KEY).build().expect("a table");
    let mut step = |what: &str, take: &dyn Fn(&mut GameState) -> bool| {
        let is_taken = take(&mut table);
        assert_eq!(table.hand_key(), Some(KEY), "after {what}");
        is_taken
    };
    for _ in 0..3 {
        step("advance_round", &|table| (table.advance_round(), true).1);
    }
    assert!(step("a forced bet", &|table| table.do_bet(5.0, true).is_ok()));
    assert!(!step("a bet that is refused", &|table| table.do_bet(f32::NAN, false).is_ok()));
    assert!(step("a bet", &|table| table.do_bet(20.0, false).is_ok()));
    assert!(step("a choice", &|table| table.choose(AgentAction::Call).is_ok()));
    step("fold", &|table| (table.fold(), true).1);
    assert!(step("award", &|table| table.award(0, 0.0).is_ok()));
    assert!(!step("an award that is refused", &|table| table.award(3, 1.0).is_ok()));
    step("complete", &|table| (table.complete(), true).1);
    assert!(step("settle", &|table| table.settle(&[1; 16]).is_ok()));
    assert!(!step("a second settlement", &|table| table.settle(&[1; 16]).is_ok()));
}

/// Two tables that differ only in good keys answer the same, and differ only in the key after it.
#[test]
fn nothing_hangs_on_a_good_key() {
    let mut draw = Draw::new(4);
    for _ in 0..2000 {
        let drawn = if draw.once_in(2) { tables::half_played } else { tables::strange };
        let mut one = drawn(&mut draw);
        let mut other = one.clone();
        key::good(&mut draw).put(&mut one);
        key::good(&mut draw).put(&mut other);
        let (mut one, mut other) = (Words::of(&ours(&one)), Words::of(&ours(&other)));
        let keys = [one.key(), other.key()];
        for _ in 0..draw.within(1, 20) {
            let (amount, seat) = (lists::amounts::any(&mut draw), draw.below(17) as u32);
            let is_forced = draw.once_in(3);
            let kind = draw.below(7);
            let take = |words: &mut Words| match kind {
                0 => (words.advance_round(), [0; 16]),
                1 => (words.complete(), [0; 16]),
                2 => (words.fold(), [0; 16]),
                3 => (words.award(seat, amount), [0; 16]),
                4 => words.rewards(),
                _ => (words.do_bet(amount, is_forced), [0; 16]),
            };
            assert_eq!(take(&mut one), take(&mut other));
            assert_eq!(one.without_key(), other.without_key());
            assert_eq!([one.key(), other.key()], keys);
            let asked = |words: &Words| {
                let (refused, amounts, answers) = words.queries(seat);
                let (not_told, reward) = words.player_reward(seat);
                (refused, amounts.map(f32::to_bits), answers, not_told, reward.to_bits())
            };
            assert_eq!(asked(&one), asked(&other));
        }
    }
}

#[test]
fn a_build_does_not_take_the_key_of_the_hand_before() {
    let mut words = Words::of(&builder().hand_key(KEY).build().expect("a table"));
    assert_eq!(words.key(), [3, 2026, 7]);
    assert_eq!(words.build(&[100.0, 100.0], 10.0, |_| {}), 0);
    assert_eq!(words.key(), [0, 0, 0]);
    // Whatever stands in the lists, in its range or not.
    let mut any = Words { floats: [f32::NAN; FLOATS], numbers: [u32::MAX; NUMBERS] };
    let with_key = |given: &mut [u32; GIVEN]| {
        given[given::KEY] = 1;
        (given[given::KEY_CODE], given[given::KEY_YEAR], given[given::KEY_HAND]) = (1, 2, 3);
    };
    assert_eq!(any.build(&[100.0, 100.0], 10.0, with_key), 0);
    assert_eq!(any.key(), [1, 2, 3]);
    // A key that is told without its flag is none.
    let no_flag = |given: &mut [u32; GIVEN]| given[given::KEY_YEAR] = 2026;
    assert_eq!(any.build(&[100.0, 100.0], 10.0, no_flag), 0);
    assert_eq!(any.key(), [0, 0, 0]);
    let most = [(given::KEY, 1), (given::KEY_CODE, 65_535), (given::KEY_YEAR, 65_535)];
    for (place, most) in most {
        for value in [most + 1, u32::MAX] {
            let out_of_range = |given: &mut [u32; GIVEN]| given[place] = value;
            assert_eq!(any.build(&[100.0, 100.0], 10.0, out_of_range), 19);
        }
    }
}

/// The words from FREE on are no table's: no call reads or writes them.
#[test]
fn free_words_are_neither_read_nor_written() {
    let mut draw = Draw::new(5);
    for _ in 0..500 {
        let mut table = tables::new_game(&mut draw);
        // The same table without them goes beside it.
        let mut plain = Words::of(&ours(&table));
        let mut words = plain.clone();
        let free: Vec<u32> = (number::FREE..NUMBERS).map(|_| draw.bits() as u32).collect();
        words.numbers[number::FREE..].copy_from_slice(&free);
        for _ in 0..draw.within(1, 30) {
            let step = play::in_turn(&mut draw, &table);
            assert_eq!(words.take(&step), plain.take(&step));
            assert_eq!(words.numbers[..number::FREE], plain.numbers[..number::FREE]);
            assert_eq!(words.bits().0, plain.bits().0);
            assert_eq!(words.numbers[number::FREE..], free);
            step.take(&mut table);
        }
        let free_given = |given: &mut [u32; GIVEN]| {
            given[given::FREE..].iter_mut().for_each(|word| *word = u32::MAX)
        };
        assert_eq!(words.build(&[100.0, 100.0], 10.0, free_given), 0);
        assert_eq!(words.numbers[number::FREE..], free);
    }
    let table = |free: u32| {
        let mut words = Words::of(&builder().hand_key(KEY).build().expect("a table"));
        words.numbers[number::FREE..].fill(free);
        GameState::from_words(words.floats, words.numbers).expect("a sound table")
    };
    assert_eq!(table(0), table(u32::MAX));
}

#[test]
fn a_script_leads_to_a_table_with_the_key_that_stood() {
    let t = "t 0 10 5 0 100 100\n";
    let key = |script: String| play_table(script.as_bytes()).expect("a table").hand_key();
    assert_eq!(key(t.to_string()), None);
    assert_eq!(key(format!("k 3 2026 7\n{t}")), Some(KEY));
    assert_eq!(key(format!("k 3 2026 7\n{t}n\nk 3 2026 8\nn\n")), Some(KEY));
    assert_eq!(key(format!("k 3 2025 7\nk 3 2026 7\nt 0 0 5 0 9 9\nt 0 10 5\n{t}")), Some(KEY));
    assert_eq!(key(format!("k 3 2026 7\n{t}k 5 0 0\n{t}")), Some(KEY));
    assert_eq!(key(format!("k 3 2026 7\n{t}{t}")), None);
    assert_eq!(key(format!("k 3 2026 7\nk 0 0 0\n{t}")), None);
    assert_eq!(play_table(b""), Err(ScriptError::BadLine));
    assert_eq!(play_table(format!("k 5 0 0\n{t}").as_bytes()), Err(ScriptError::BadLine));
    assert_eq!(play_table(&[b'\n'; 65_537]), Err(ScriptError::ScriptTooLong));
}

#[test]
fn scripts_lead_to_the_tables_of_the_oracle() {
    let mut draw = Draw::new(6);
    let [mut refused, mut with_key] = [0, 0];
    for number in 1..=300 {
        let script = drawn::keyed(&mut draw, number).script;
        // The first lines, where no table may stand yet, and all.
        for count in [0, 1, 2, 20, usize::MAX] {
            let lines = script.split_inclusive(|&byte| byte == b'\n').take(count);
            let script = lines.collect::<Vec<_>>().concat();
            match player::table_at_end(&script) {
                Ok(table) => {
                    assert_same(&play_table(&script).expect("a table"), &table, "at the end");
                    with_key += usize::from(Key::of(&table) != Key::NONE);
                }
                Err(number) => {
                    assert_eq!(play_table(&script).unwrap_err().number(), number);
                    refused += 1;
                }
            }
        }
    }
    // Of no line and of one 300 each are refused, whatever is drawn.
    assert!(refused > 650 && with_key > 300, "{refused} refused, {with_key} with a key");
}
