//! 19 at the boundary: lists that are too short and words out of range, which come before document 01's own tests, and
//! tables that are not sound.

#[path = "common/words.rs"]
mod words;

use peatcloak::arena::GameStateBuilder;
use peatcloak::places::number::{
    ADDED, BB_POSTED, BOARD, BOARD_LENGTH, CAP, DEALER_IDX, FORCED_BET_COUNT, HAS_CAP, KEY_CODE,
    KEY_HAND, KEY_YEAR, NEEDS_ACTION, NUM_PLAYERS, PLAYER_ACTIVE, PLAYER_ALL_IN, ROUND,
    ROUND_BEFORE, ROUND_LENGTH, SB_POSTED, STARTING_PLAYER_ACTIVE, TO_ACT_IDX, TOTAL_BET_COUNT,
    TOTAL_RAISE_COUNT,
};
use peatcloak::places::{AMOUNTS, FLOATS, GIVEN, NUMBERS, given};
use peatcloak::sys;
use words::Words;

fn table() -> Words {
    let builder = GameStateBuilder::new().stacks([100.0, 100.0]).big_blind(10.0);
    Words::of(&builder.build().expect("a table"))
}

/// A run of bets is a step too, where it is there.
const STEPS: usize = if cfg!(feature = "parts") { 9 } else { 8 };

/// What each step answers. `Words` sees that a refused one has written nothing.
fn steps(words: &Words) -> [u32; STEPS] {
    [
        words.clone().do_bet(10.0, false),
        words.clone().do_bet(10.0, true),
        words.clone().fold(),
        words.clone().advance_round(),
        words.clone().complete(),
        words.clone().award(0, 1.0),
        words.clone().settle(),
        words.player_reward(0).0,
        #[cfg(feature = "parts")]
        words.clone().run_bets(&[10.0]),
    ]
}

fn with(changes: &[(usize, u32)]) -> Words {
    let mut words = table();
    changes.iter().for_each(|&(place, value)| words.numbers[place] = value);
    words
}

#[test]
fn a_word_out_of_range_is_19() {
    let sets = [PLAYER_ACTIVE, PLAYER_ALL_IN, STARTING_PLAYER_ACTIVE, NEEDS_ACTION];
    let counters = [TOTAL_BET_COUNT, TOTAL_RAISE_COUNT, FORCED_BET_COUNT, CAP];
    let cards = [BOARD, BOARD + 1, BOARD + 2, BOARD + 3, BOARD + 4];
    let most = [ROUND, ROUND_BEFORE].map(|place| (place, 11)).into_iter();
    let most = most.chain(sets.map(|place| (place, 65_535)));
    let most = most.chain([KEY_CODE, KEY_YEAR].map(|place| (place, 65_535)));
    let most = most.chain([BB_POSTED, SB_POSTED, HAS_CAP].map(|place| (place, 1)));
    let most = most.chain(counters.map(|place| (place, 255)));
    let most = most.chain(cards.map(|place| (place, 255)));
    for (place, most) in most {
        for value in [most + 1, u32::MAX] {
            let words = with(&[(place, value)]);
            assert_eq!(steps(&words), [19; STEPS], "{place}: {value}");
            assert_eq!(words.queries(0).0, 19, "{place}: {value}");
        }
    }
}

/// Changes after which the table is not sound, by its number of seats, its round's list, a seat, its board, a set or its
/// key. Each word is in range: seats, lengths, the number of seats and a hand are numbers of any size.
const UNSOUND: [&[(usize, u32)]; 32] = [
    &[(NUM_PLAYERS, 0)],
    &[(NUM_PLAYERS, 1)],
    &[(NUM_PLAYERS, 3)],
    &[(NUM_PLAYERS, 17)],
    &[(NUM_PLAYERS, u32::MAX)],
    &[
        (NUM_PLAYERS, 0),
        (ROUND_LENGTH, 0),
        (PLAYER_ACTIVE, 0),
        (STARTING_PLAYER_ACTIVE, 0),
        (NEEDS_ACTION, 0),
    ],
    &[
        (NUM_PLAYERS, 1),
        (ROUND_LENGTH, 1),
        (PLAYER_ACTIVE, 1),
        (STARTING_PLAYER_ACTIVE, 1),
        (NEEDS_ACTION, 1),
    ],
    &[(NUM_PLAYERS, 17), (ROUND_LENGTH, 17)],
    &[(ROUND_LENGTH, 0)],
    &[(ROUND_LENGTH, 1)],
    &[(ROUND_LENGTH, 3)],
    &[(ROUND_LENGTH, u32::MAX)],
    &[(DEALER_IDX, 2)],
    &[(DEALER_IDX, u32::MAX)],
    &[(TO_ACT_IDX, 2)],
    &[(TO_ACT_IDX, u32::MAX)],
    &[(BOARD_LENGTH, 6)],
    &[(BOARD_LENGTH, u32::MAX)],
    &[(BOARD_LENGTH, 1), (BOARD, 52)],
    &[(BOARD_LENGTH, 5), (BOARD + 4, 255)],
    &[(PLAYER_ACTIVE, 0b111)],
    &[(PLAYER_ALL_IN, 0b100)],
    &[(STARTING_PLAYER_ACTIVE, 0b111)],
    &[(NEEDS_ACTION, 0b111)],
    &[(PLAYER_ACTIVE, 0x8003)],
    &[(PLAYER_ALL_IN, 0x8000)],
    &[(STARTING_PLAYER_ACTIVE, 0x8003)],
    &[(NEEDS_ACTION, 0x8003)],
    &[(KEY_CODE, 1)],
    &[(KEY_HAND, 1)],
    &[(KEY_HAND, u32::MAX)],
    &[(KEY_CODE, 65_535), (KEY_HAND, u32::MAX)],
];

#[test]
fn a_step_on_a_table_that_is_not_sound_is_19() {
    assert_eq!(steps(&table()), [0; STEPS]);
    for changes in UNSOUND {
        // At Complete too, where advancing and completing would do nothing.
        for round in [0, 11] {
            let mut words = with(changes);
            words.numbers[ROUND] = round;
            let (refused, _, [.., is_sound]) = words.queries(0);
            assert_eq!((refused, is_sound), (0, 0), "{changes:?}: in range, not sound");
            assert_eq!(steps(&words), [19; STEPS], "{changes:?}, round {round}");
        }
    }
}

#[test]
fn a_list_that_is_too_short_is_19() {
    let Words { mut floats, mut numbers } = table();
    // A host of layout 1 had no number from ADDED on.
    let old = (FLOATS, ADDED);
    let short = [(FLOATS - 1, NUMBERS), (FLOATS, NUMBERS - 1), (0, 0), (0, NUMBERS), (FLOATS, 0)];
    for (floats_len, numbers_len) in short.into_iter().chain([old]) {
        let (f, n) = (floats.as_mut_ptr(), numbers.as_mut_ptr());
        // SAFETY: the arrays are longer than that.
        unsafe {
            assert_eq!(sys::peatcloak_do_bet(f, floats_len, n, numbers_len, 10.0, 0), 19);
            assert_eq!(sys::peatcloak_fold(f, floats_len, n, numbers_len), 19);
            assert_eq!(sys::peatcloak_advance_round(f, floats_len, n, numbers_len), 19);
            assert_eq!(sys::peatcloak_complete(f, floats_len, n, numbers_len), 19);
            assert_eq!(sys::peatcloak_award(f, floats_len, n, numbers_len, 0, 1.0), 19);
            // 19 comes before a script that is too long, or leads to no table.
            for script in [b"t 0 10 5 0 9 9".as_slice(), b"", &[b'n'; 65_537]] {
                let (s, s_len) = (script.as_ptr(), script.len());
                assert_eq!(sys::peatcloak_play_table(f, floats_len, n, numbers_len, s, s_len), 19);
            }
            assert_eq!(sys::peatcloak_round_new(f, floats_len, n, numbers_len, 2, 1.0, 3, 0), 19);
            assert_eq!(sys::peatcloak_round_advance_action(f, floats_len, n, numbers_len), 19);
            assert_eq!(sys::peatcloak_round_do_bet(f, floats_len, n, numbers_len, 1.0, 0), 19);
            #[cfg(feature = "parts")]
            assert_eq!(
                peatcloak::parts::peatcloak_run_bets(
                    f,
                    floats_len,
                    n,
                    numbers_len,
                    [1.0].as_ptr(),
                    1
                ),
                19
            );
        }
    }
    let before = table().bits();
    assert_eq!(Words { floats, numbers }.bits(), before);
}

#[test]
fn a_build_that_is_told_too_little_is_19() {
    let (amounts, mut told) = ([10.0; AMOUNTS], [0; GIVEN]);
    told[given::STACKS] = 1;
    told[given::BIG_BLIND] = 1;
    let build = |amounts: &[f32], told: &[u32]| table().build_told(&[100.0, 100.0], amounts, told);
    assert_eq!(build(&amounts, &told), 0);
    // A host of layout 1 had nothing behind ROUND_DATA.
    for short in [0, given::ROUND_DATA + 1, given::FREE, GIVEN - 1] {
        assert_eq!(build(&amounts, &told[..short]), 19);
    }
    for short in [0, AMOUNTS - 1] {
        assert_eq!(build(&amounts[..short], &told), 19);
    }
}

#[test]
fn round_data_is_made_over_any_words() {
    let any = Words { floats: [f32::NAN; FLOATS], numbers: [u32::MAX; NUMBERS] };
    assert_eq!(any.clone().round_new(2, 1.0, 0b11, 0), 0);
    assert_eq!(any.clone().round_new_with_bets(1.0, 0b11, 0, &[5.0, 10.0]), 0);
    assert_eq!(any.refused_round()[..2], [19, 19]);
}
