//! Each intended difference of docs/DIFFERENCES.md on its smallest input, on both sides.

#[path = "common/words.rs"]
mod words;

use std::env;
use std::os::unix::process::ExitStatusExt;
use std::panic::{AssertUnwindSafe, catch_unwind};
use std::process::Command;
use std::sync::mpsc;
use std::time::Duration;

use lists::carry::set_of as set;
use peatcloak::places::float;
use peatcloak::places::number::{
    BOARD, BOARD_LENGTH, DEALER_IDX, FORCED_BET_COUNT, NEEDS_ACTION, NUM_PLAYERS, PASSED,
    PLAYER_ACTIVE, PLAYER_ALL_IN, ROUND, ROUND_LENGTH, STARTING_PLAYER_ACTIVE, TO_ACT_IDX,
    TOTAL_BET_COUNT, TOTAL_RAISE_COUNT,
};
use peatcloak::sys;
use rs_poker::arena::errors::GameStateError;
use rs_poker::arena::{GameState, GameStateBuilder, RoundData};
use rs_poker::core::{Card, PlayerBitSet};
use words::Words;

/// "The table": two stacks of 100 and big blind 10.
fn theirs() -> GameState {
    GameStateBuilder::new().stacks([100.0, 100.0]).big_blind(10.0).build().expect("the table")
}

fn theirs_with(change: impl Fn(&mut GameState)) -> GameState {
    let mut state = theirs();
    change(&mut state);
    state
}

fn ours() -> Words {
    let builder = peatcloak::arena::GameStateBuilder::new().stacks([100.0, 100.0]);
    Words::of(&builder.big_blind(10.0).build().expect("the table"))
}

fn ours_with(changes: &[(usize, u32)]) -> Words {
    let mut words = ours();
    changes.iter().for_each(|&(place, value)| words.numbers[place] = value);
    words
}

fn ours_with_bets(numbers: &[(usize, u32)], floats: &[(usize, f32)]) -> Words {
    let mut words = ours_with(numbers);
    floats.iter().for_each(|&(place, value)| words.floats[place] = value);
    words
}

/// "A list of so many": round data with this seat to act and these owing.
fn data(length: usize, to_act: usize, owing: u16) -> RoundData {
    RoundData::new(length, 1.0, set(owing), to_act)
}

fn our_data(length: u32, to_act: u32, owing: u32) -> Words {
    let mut words = Words::ZEROS;
    words.floats[float::MIN_RAISE] = 1.0;
    words.numbers[STARTING_PLAYER_ACTIVE] = owing;
    words.numbers[NEEDS_ACTION] = owing;
    words.numbers[TO_ACT_IDX] = to_act;
    words.numbers[ROUND_LENGTH] = length;
    words
}

fn panics<T>(call: impl FnOnce() -> T) -> bool {
    catch_unwind(AssertUnwindSafe(call)).is_err()
}

/// Whether a call is still at it after a while. Its thread is left behind, and ends with the tests.
fn never_returns(call: impl FnOnce() + Send + 'static) -> bool {
    let (done, waits) = mpsc::channel();
    std::thread::spawn(move || {
        call();
        let _ = done.send(());
    });
    waits.recv_timeout(Duration::from_millis(200)) == Err(mpsc::RecvTimeoutError::Timeout)
}

#[test]
fn d1_and_d2_sets_above_16_seats() {
    assert!(panics(|| PlayerBitSet::new(17)));
    assert_eq!(sys::peatcloak_seats_new(17), 3 << 16);
    assert!(panics(|| PlayerBitSet::default().enable(16)));
    assert!(panics(|| PlayerBitSet::default().disable(16)));
    assert!(panics(|| PlayerBitSet::default().get(16)));
    assert_eq!(sys::peatcloak_seats_enable(0, 16), 20 << 16);
    assert_eq!(sys::peatcloak_seats_disable(0, 16), 20 << 16);
    assert_eq!(sys::peatcloak_seats_get(0, 16), 20 << 16);
}

#[test]
fn d3_and_d4_an_empty_list() {
    assert!(panics(|| data(0, 0, 0).advance_action()));
    assert!(panics(|| data(0, 0, 0).do_bet(0.0, false)));
    assert!(panics(|| data(0, 0, 0).current_player_bet()));
    assert_eq!(our_data(0, 0, 0).refused_round(), [19, 19, 19]);
}

#[test]
fn d5_to_d7_and_d26_a_seat_to_act_outside() {
    assert!(panics(|| data(1, 1, 0).do_bet(0.0, false)));
    assert!(panics(|| data(1, 1, 0).current_player_bet()));
    let mut walked = data(1, 1, 0);
    walked.advance_action();
    assert_eq!(walked.to_act_idx, 0);
    assert_eq!(our_data(1, 1, 0).refused_round(), [19, 19, 19]);
    assert!(panics(|| data(17, 15, 1).advance_action()));
    assert_eq!(our_data(17, 15, 1).refused_round(), [19, 19, 19]);
    assert!(panics(|| data(1, usize::MAX, 0).advance_action()));
    assert_eq!(our_data(1, u32::MAX, 0).refused_round(), [19, 19, 19]);
}

/// The counter's place, the bet that raises it, and whether that is forced.
const COUNTERS: [(usize, f32, bool); 3] =
    [(TOTAL_BET_COUNT, 0.0, false), (TOTAL_RAISE_COUNT, 1.0, false), (FORCED_BET_COUNT, 0.0, true)];

fn fill(data: &mut RoundData, place: usize) {
    let counter = match place {
        TOTAL_BET_COUNT => &mut data.total_bet_count,
        TOTAL_RAISE_COUNT => &mut data.total_raise_count,
        _ => &mut data.forced_bet_count,
    };
    *counter = 255;
}

#[test]
fn d8_a_full_counter_of_round_data() {
    for (place, extra, is_forced) in COUNTERS {
        let mut full = data(1, 0, 0);
        fill(&mut full, place);
        assert!(panics(|| full.do_bet(extra, is_forced)));
        let mut words = our_data(1, 0, 0);
        words.numbers[place] = 255;
        assert_eq!(words.round_do_bet(extra, is_forced), 21);
    }
}

#[test]
fn d9_a_full_counter_of_a_record() {
    for (place, amount, is_forced) in COUNTERS {
        let amount = 10.0 * amount;
        let mut full = theirs_with(|state| fill(&mut state.round_data, place));
        assert!(panics(|| full.do_bet(amount, is_forced)));
        assert_eq!(ours_with(&[(place, 255)]).do_bet(amount, is_forced), 21);
    }
    // The Rust has taken the chips by then.
    let mut full = theirs_with(|state| fill(&mut state.round_data, TOTAL_RAISE_COUNT));
    assert!(panics(|| full.do_bet(10.0, false)));
    assert_eq!(full.stacks[0], 90.0);
}

#[test]
fn d10_to_d12_records_on_which_a_step_panics() {
    // A voluntary -0.0 is refused first: D27.
    for (amount, is_forced) in [(10.0, false), (10.0, true), (-0.0, true), (f32::NAN, true)] {
        let before = theirs_with(|state| state.round_data.to_act_idx = 2);
        let mut after = before.clone();
        assert!(panics(|| after.do_bet(amount, is_forced)) && after == before);
        assert_eq!(ours_with(&[(TO_ACT_IDX, 2)]).do_bet(amount, is_forced), 19);
    }
    assert!(panics(|| theirs_with(|state| state.round_data.to_act_idx = 16).fold()));
    assert_eq!(ours_with(&[(TO_ACT_IDX, 16)]).fold(), 19);
    assert!(panics(|| theirs_with(|state| state.num_players = 0).advance_round()));
    assert_eq!(ours_with(&[(NUM_PLAYERS, 0)]).advance_round(), 19);
}

#[test]
fn d13_a_seat_outside() {
    assert!(panics(|| theirs().award(2, 1.0)));
    assert!(panics(|| theirs().player_reward(2)));
    assert_eq!(ours().award(2, 1.0), 20);
    assert_eq!(ours().player_reward(2), (20, 0.0));
}

#[test]
fn d14_and_d15_a_walk_without_end() {
    assert!(never_returns(|| data(1, 0, 0b10).advance_action()));
    assert_eq!(Words::ZEROS.round_new(1, 1.0, 0b10, 0), 19);
    assert_eq!(our_data(1, 0, 0b10).refused_round()[0], 19);
    let mut owing = theirs_with(|state| state.round_data.needs_action = set(0b101));
    assert!(never_returns(move || owing.fold()));
    assert_eq!(ours_with(&[(NEEDS_ACTION, 0b101)]).fold(), 19);
    let mut active = theirs_with(|state| state.player_active = set(0b100));
    assert!(never_returns(move || active.advance_round()));
    assert_eq!(ours_with(&[(PLAYER_ACTIVE, 0b100)]).advance_round(), 19);
}

#[test]
#[cfg(feature = "parts")]
fn d16_the_sign_of_zero() {
    use peatcloak::parts::{peatcloak_max, peatcloak_min};

    for (a, b) in [(0.0_f32, -0.0), (-0.0, 0.0)] {
        assert_eq!(a.max(b), 0.0);
        assert_eq!(peatcloak_max(a, b).to_bits(), a.to_bits());
        assert_eq!(peatcloak_min(a, b).to_bits(), a.to_bits());
    }
}

#[test]
fn d17_the_sign_of_a_nan() {
    let nan = f32::from_bits(0xffc0_0000);
    assert!(nan.is_sign_negative());
    #[cfg(feature = "parts")]
    assert_eq!(peatcloak::parts::peatcloak_is_sign_negative(nan), 0);
    assert_eq!(theirs().do_bet(nan, false), Err(GameStateError::BetInvalidSize));
    assert_eq!(ours().do_bet(nan, false), 14);
}

#[test]
fn d18_the_bits_of_a_nan() {
    let state = theirs_with(|state| {
        state.stacks[0] = f32::INFINITY;
        state.starting_stacks[0] = f32::INFINITY;
    });
    assert!(state.player_reward(0).is_nan());
    let mut words = ours();
    words.floats[float::STACKS] = f32::INFINITY;
    words.floats[float::STARTING_STACKS] = f32::INFINITY;
    let (refused, reward) = words.player_reward(0);
    assert!(refused == 0 && reward.is_nan());
}

#[test]
fn d19_a_card_above_51() {
    assert_eq!(u8::from(Card::from(52)), 39);
    let builder = peatcloak::arena::GameStateBuilder::new().stacks([100.0, 100.0]).big_blind(10.0);
    assert_eq!(builder.board([0, 1, 52]).build().unwrap_err().number(), 18);
}

#[test]
fn d20_round_data_that_makes_the_record_unsound() {
    let outside = RoundData::new(2, 10.0, PlayerBitSet::new(2), 2);
    let builder = GameStateBuilder::new().stacks([100.0, 100.0]).big_blind(10.0);
    assert!(builder.round_data(outside).build().is_ok());
    let mut words = our_data(2, 2, 0b11);
    assert_eq!(words.build_with_its_round_data(&[100.0, 100.0], 10.0), 19);
}

#[test]
fn d21_and_d22_round_data_with_parts_that_are_not_good() {
    assert_eq!(data(0, 0, 0).player_bet.len(), 0);
    assert_eq!(Words::ZEROS.round_new(0, 1.0, 0, 0), 19);
    let made = |count: usize| RoundData::new_with_bets(1.0, set(0), 0, vec![1.0; count]);
    assert_eq!(made(17).player_bet.len(), 17);
    assert_eq!(made(256).total_raise_count, 0);
    assert_eq!(Words::ZEROS.round_new_with_bets(1.0, 0, 0, &[0.0; 17]), 19);
}

#[test]
fn d23_to_d25_owing_seats_outside() {
    assert_eq!(data(1, 0, 0b10).current_player_bet(), 0.0);
    let mut paid = data(1, 0, 0b10);
    paid.do_bet(1.0, false);
    assert_eq!(paid.player_bet[0], 1.0);
    assert_eq!(our_data(1, 0, 0b10).refused_round(), [19, 19, 19]);
    let mut walked = data(2, 0, 0b110);
    walked.advance_action();
    assert_eq!(walked.to_act_idx, 1);
    assert_eq!(our_data(2, 0, 0b110).refused_round(), [19, 19, 19]);
}

#[test]
fn d27_steps_on_unsound_records_that_the_rust_takes() {
    let mut seat = theirs_with(|state| state.round_data.to_act_idx = 2);
    seat.fold();
    assert_eq!((seat.to_act_idx(), seat.num_active_players()), (1, 2));
    assert_eq!(ours_with(&[(TO_ACT_IDX, 2)]).fold(), 19);

    let dealer = theirs_with(|state| state.dealer_idx = 2);
    let (mut advanced, mut completed) = (dealer.clone(), dealer.clone());
    advanced.advance_round();
    completed.complete();
    assert_eq!((advanced.to_act_idx(), completed.to_act_idx()), (1, 2));
    assert_eq!(ours_with(&[(DEALER_IDX, 2)]).advance_round(), 19);
    assert_eq!(ours_with(&[(DEALER_IDX, 2)]).complete(), 19);

    let over = theirs_with(|state| {
        state.complete();
        state.dealer_idx = 2;
    });
    let (mut advanced, mut completed) = (over.clone(), over.clone());
    advanced.advance_round();
    completed.complete();
    assert!(advanced == over && completed == over);
    assert_eq!(ours_with(&[(DEALER_IDX, 2), (ROUND, 11)]).advance_round(), 19);
    assert_eq!(ours_with(&[(DEALER_IDX, 2), (ROUND, 11)]).complete(), 19);

    let mut one = theirs_with(|state| state.num_players = 1);
    one.advance_round();
    assert_eq!(one.round_data.player_bet.len(), 1);
    assert_eq!(ours_with(&[(NUM_PLAYERS, 1)]).advance_round(), 19);
}

#[test]
fn d27_bets_on_unsound_records_that_the_rust_takes() {
    type Change = fn(&mut GameState);
    let changes: [(Change, usize, u32); 3] = [
        (|state| state.round_data.player_bet.push(0.0), ROUND_LENGTH, 3),
        (|state| state.player_all_in = set(0b100), PLAYER_ALL_IN, 0b100),
        (|state| state.board = (0..6).map(Card::from).collect(), BOARD_LENGTH, 6),
    ];
    for (change, place, value) in changes {
        assert_eq!(theirs_with(change).do_bet(10.0, false), Ok(10.0));
        assert_eq!(ours_with(&[(place, value)]).do_bet(10.0, false), 19);
    }
}

#[test]
fn d27_an_award_and_a_reward_on_an_unsound_record() {
    let mut state = theirs_with(|state| state.player_all_in = set(0b100));
    assert_eq!(state.player_reward(0), 0.0);
    state.award(0, 1.0);
    assert_eq!(
        (state.stacks[0], state.player_winnings[0], state.player_reward(0)),
        (101.0, 1.0, 1.0)
    );
    assert_eq!(ours_with(&[(PLAYER_ALL_IN, 0b100)]).award(0, 1.0), 19);
    assert_eq!(ours_with(&[(PLAYER_ALL_IN, 0b100)]).player_reward(0), (19, 0.0));
}

#[test]
fn d27_bets_on_unsound_records_that_the_rust_refuses() {
    use GameStateError::{
        BetInvalidSize, BetSizeDoesntCall, BetSizeDoesntCallSelf, RaiseSizeTooSmall,
    };

    let outside = theirs_with(|state| state.round_data.to_act_idx = 2);
    for amount in [-0.0, f32::NAN] {
        assert_eq!(outside.clone().do_bet(amount, false), Err(BetInvalidSize));
        assert_eq!(ours_with(&[(TO_ACT_IDX, 2)]).do_bet(amount, false), 19);
    }

    let mut only_in_the_list = outside;
    only_in_the_list.round_data.player_bet.push(20.0);
    assert_eq!(only_in_the_list.do_bet(10.0, false), Err(BetSizeDoesntCallSelf));
    assert_eq!(
        ours_with_bets(&[(TO_ACT_IDX, 2), (ROUND_LENGTH, 3)], &[(float::ROUND_BETS + 2, 20.0)])
            .do_bet(10.0, false),
        19
    );

    let all_in = theirs_with(|state| state.player_all_in = set(0b100));
    let (mut own, mut bet, mut raise) = (all_in.clone(), all_in.clone(), all_in);
    own.round_data.player_bet[0] = 20.0;
    assert_eq!(own.do_bet(10.0, false), Err(BetSizeDoesntCallSelf));
    assert_eq!(
        ours_with_bets(&[(PLAYER_ALL_IN, 0b100)], &[(float::ROUND_BETS, 20.0)]).do_bet(10.0, false),
        19
    );
    bet.round_data.bet = 20.0;
    assert_eq!(bet.do_bet(10.0, false), Err(BetSizeDoesntCall));
    assert_eq!(
        ours_with_bets(&[(PLAYER_ALL_IN, 0b100)], &[(float::ROUND_BET, 20.0)]).do_bet(10.0, false),
        19
    );
    assert_eq!(raise.do_bet(5.0, false), Err(RaiseSizeTooSmall));
    assert_eq!(ours_with(&[(PLAYER_ALL_IN, 0b100)]).do_bet(5.0, false), 19);
}

#[test]
fn d28_and_d29_places_that_only_ours_has() {
    let built = ours();
    let third_stack = float::STACKS + 2;
    assert!(built.floats[third_stack..float::STARTING_STACKS].iter().all(|&stack| stack == 0.0));
    assert!(built.numbers[BOARD..PASSED].iter().all(|&card| card == 0));
    let mut words = ours_with(&[(BOARD, 7)]);
    words.floats[third_stack] = 7.0;
    assert_eq!(words.fold(), 0);
    assert_eq!((words.floats[third_stack], words.numbers[BOARD]), (7.0, 7));
}

#[test]
fn d30_lists_that_disagree() {
    assert!(panics(|| theirs_with(|state| state.player_winnings.clear()).award(0, 1.0)));
    assert_eq!(ours().award(0, 1.0), 0);
}

#[test]
fn d31_a_query_above_16_places() {
    let state = theirs_with(|state| state.round_data.player_bet = vec![5.0; 17].into());
    assert_eq!(state.current_round_player_bet(16), 5.0);
    let mut words = ours_with(&[(ROUND_LENGTH, 17)]);
    words.floats[float::ROUND_BETS..].fill(5.0);
    assert_eq!(words.current_round_player_bet(15), 5.0);
    assert_eq!(words.current_round_player_bet(16), 0.0);
}

/// The calls of the Rust that make a list of so many places: D32, D33 twice, D34.
const GROWING: [fn(usize); 4] = [
    |count| drop(data(count, 0, 0)),
    |count| theirs_with(|state| state.num_players = count).advance_round(),
    |count| theirs_with(|state| state.num_players = count).complete(),
    |count| drop(GameStateBuilder::new().num_players_with_stack(count, 100.0)),
];

/// More floats than a list can have.
const TOO_MANY: usize = 1 << 61;

/// Names the call that a child makes.
const CALL: &str = "PEATCLOAK_GROWING_CALL";

/// Whether a call ends the process for want of memory. A child makes it, in the test of this name alone.
fn ends_the_process(test: &str, call: usize) -> bool {
    let mut child = Command::new(env::current_exe().expect("the tests are a program"));
    child.args(["--exact", test, "--nocapture"]).env(CALL, call.to_string());
    let ended = child.output().expect("the child runs");
    let aborted = 6;
    let told = String::from_utf8_lossy(&ended.stderr);
    ended.status.signal() == Some(aborted)
        && told.contains("memory allocation of 9223372036854775804 bytes failed")
}

#[test]
fn d32_to_d34_lists_that_cannot_grow() {
    if let Ok(call) = env::var(CALL) {
        return GROWING[call.parse::<usize>().expect("a call")](TOO_MANY - 1);
    }
    for (at, call) in GROWING.iter().enumerate() {
        assert!(panics(|| call(TOO_MANY)));
        assert!(ends_the_process("d32_to_d34_lists_that_cannot_grow", at));
    }

    let nobody = peatcloak::core::PlayerBitSet::default();
    let refused =
        |count| peatcloak::arena::RoundData::new(count, 1.0, nobody, 0).unwrap_err().number();
    let builder = |count| {
        let seats = peatcloak::arena::GameStateBuilder::new().num_players_with_stack(count, 100.0);
        seats.big_blind(10.0).build()
    };
    for count in [TOO_MANY, TOO_MANY - 1] {
        assert_eq!(refused(count), 19);
        assert_eq!(builder(count).unwrap_err().number(), 3);
    }
    assert!(builder(16).is_ok());
    assert_eq!(Words::ZEROS.round_new(u32::MAX, 1.0, 0, 0), 19);
    assert_eq!(ours_with(&[(NUM_PLAYERS, u32::MAX)]).advance_round(), 19);
    assert_eq!(ours_with(&[(NUM_PLAYERS, u32::MAX)]).complete(), 19);
}

#[test]
fn d35_a_round_list_that_lacks_the_seat() {
    assert!(panics(|| theirs_with(|state| state.round_data.player_bet.clear()).fold()));
    assert_eq!(ours_with(&[(ROUND_LENGTH, 0)]).fold(), 19);

    let short = theirs_with(|state| {
        state.round_data.player_bet.truncate(1);
        state.round_data.to_act_idx = 1;
    });
    for (is_forced, left) in [(false, 100.0), (true, 90.0)] {
        let mut state = short.clone();
        assert!(panics(|| state.do_bet(10.0, is_forced)));
        assert_eq!(state.stacks[1], left);
        assert_eq!(ours_with(&[(TO_ACT_IDX, 1), (ROUND_LENGTH, 1)]).do_bet(10.0, is_forced), 19);
    }
}

#[test]
fn d35_a_seat_that_no_set_has() {
    let long = theirs_with(|state| {
        state.round_data.player_bet.resize(17, 0.0);
        state.round_data.to_act_idx = 1;
    });
    assert!(panics(|| long.clone().fold()));
    assert!(panics(|| long.clone().do_bet(0.0, false)));
    assert_eq!(ours_with(&[(TO_ACT_IDX, 1), (ROUND_LENGTH, 17)]).fold(), 19);
    assert_eq!(ours_with(&[(TO_ACT_IDX, 1), (ROUND_LENGTH, 17)]).do_bet(0.0, false), 19);

    let past_the_last = |state: &mut GameState| {
        (state.num_players, state.dealer_idx, state.player_active) = (17, 15, set(1));
    };
    assert!(panics(|| theirs_with(past_the_last).advance_round()));
    assert_eq!(
        ours_with(&[(NUM_PLAYERS, 17), (DEALER_IDX, 15), (PLAYER_ACTIVE, 1)]).advance_round(),
        19
    );
    assert!(panics(|| theirs_with(|state| state.dealer_idx = usize::MAX).advance_round()));
    assert_eq!(ours_with(&[(DEALER_IDX, u32::MAX)]).advance_round(), 19);

    let mut seventeen = theirs_with(|state| {
        state.num_players = 17;
        state.stacks.resize(17, 100.0);
        state.player_bet.resize(17, 0.0);
        state.round_data.player_bet.resize(17, 0.0);
        state.round_data.to_act_idx = 16;
    });
    assert!(panics(|| seventeen.do_bet(0.0, false)));
    assert_eq!(
        ours_with(&[(NUM_PLAYERS, 17), (TO_ACT_IDX, 16), (ROUND_LENGTH, 17)]).do_bet(0.0, false),
        19
    );
}
