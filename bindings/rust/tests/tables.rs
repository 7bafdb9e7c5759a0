//! Builders and steps against the oracle, drawn as it draws its lists.

mod common;

use common::{assert_same, ours};
use lists::builder::Builder;
use lists::carry::ROUNDS;
use lists::draw::Draw;
use lists::faults::FAULTS;
use lists::step::Step;
use lists::table::{Table, place};
use lists::{builders, play, settlement, settlements, tables};
use peatcloak::arena::errors::{GameStateBuilderError, GameStateError};
use peatcloak::arena::{GameState, GameStateBuilder, RoundData};
use peatcloak::core::PlayerBitSet;
use peatcloak::places::number;

/// The same fields given to our builder; round data only as `new_with_bets` makes it.
fn build(builder: &Builder) -> Result<GameState, GameStateBuilderError> {
    let mut ours = GameStateBuilder::new();
    macro_rules! give {
        ($($field:ident as $setter:ident),*) => {
            $(if let Some(value) = builder.$field.clone() { ours = ours.$setter(value); })*
        };
    }
    give!(stacks as stacks, big_blind as big_blind, small_blind as small_blind, ante as ante);
    give!(dealer_idx as dealer_idx, cap as max_raises_per_round, player_bet as player_bet);
    give!(board as board);
    if let Some(count) = builder.hands {
        ours = ours.hands(vec![(); count]);
    }
    if let Some(round) = builder.round {
        ours = ours.round(round_of(round));
    }
    if let Some(data) = &builder.round_data {
        let active = PlayerBitSet::from_bits(lists::carry::bits_of(data.needs_action));
        let made =
            RoundData::new_with_bets(data.min_raise, active, data.to_act_idx, &data.player_bet);
        ours = ours.round_data(made.expect("the oracle's data is sound"));
    }
    ours.build()
}

fn round_of(number: usize) -> peatcloak::arena::Round {
    let first = peatcloak::arena::Round::Starting;
    let round = (0..number).fold(first, |round, _| round.advance());
    assert_eq!(format!("{round:?}"), format!("{:?}", ROUNDS[number]));
    round
}

/// The builder with the Rust's own `new_with_bets` in the place of drawn round data.
fn with_made_data(mut builder: Builder) -> Builder {
    builder.round_data = builder.round_data.map(|data| {
        let bets = data.player_bet;
        rs_poker::arena::RoundData::new_with_bets(
            data.min_raise,
            data.needs_action,
            data.to_act_idx,
            bets,
        )
    });
    builder
}

#[test]
fn builders_answer_as_the_oracle() {
    let mut draw = Draw::new(1);
    for _ in 0..4000 {
        let mut builder = with_made_data(builders::good(&mut draw));
        // The last fault spoils round data, which no call of ours makes.
        for _ in 0..draw.pick(&[0, 0, 1, 2]) {
            draw.pick(&FAULTS[..FAULTS.len() - 1])(&mut draw, &mut builder);
        }
        match (build(&builder), builder.build()) {
            (Ok(state), Ok(table)) => assert_same(&state, &table, "built"),
            (ours, theirs) => {
                assert_eq!(ours.err().map(|e| e.number()), theirs.err());
            }
        }
    }
}

#[test]
fn steps_answer_as_the_oracle() {
    let mut draw = Draw::new(2);
    for _ in 0..4000 {
        let (mut table, played) = match draw.below(3) {
            0 => (tables::new_game(&mut draw), true),
            1 => (tables::half_played(&mut draw), draw.once_in(2)),
            _ => (tables::strange(&mut draw), false),
        };
        let mut state = ours(&table);
        for _ in 0..draw.within(1, 30) {
            let choose = if played { play::in_turn } else { play::at_random };
            one_step(&choose(&mut draw, &table), &mut state, &mut table);
        }
    }
}

fn one_step(step: &Step, state: &mut GameState, table: &mut Table) {
    let bet = table.float(place::ROUND_BET);
    let line = step.take(table);
    let (answer, refused) = match line.text().split_once(" ! ") {
        Some((_, number)) => (None, Some(number.parse().expect("a number"))),
        None => (line.text().split_once(" = ").map(|(_, answer)| answer), None),
    };
    let got = take(step, state, bet, answer.unwrap_or_default());
    assert_eq!(got.err().map(GameStateError::number), refused, "{}", line.text());
    assert_same(state, table, line.text());
}

/// Takes the step, and compares what it answers beside the table.
fn take(step: &Step, state: &mut GameState, bet: f32, answer: &str) -> Result<(), GameStateError> {
    let first = |answer: &str| answer.split(' ').next().unwrap_or_default().to_string();
    let same = |got: f32| assert_eq!(float(got), one_zero(&first(answer)));
    match *step {
        Step::Advance => state.advance_round(),
        Step::Complete => state.complete(),
        Step::Fold => state.fold(),
        Step::Bet(amount) => same(state.do_bet(amount, false)?),
        Step::Forced(amount) => same(state.do_bet(amount, true)?),
        Step::Call => same(state.do_bet(bet, false)?),
        Step::AllIn => same(state.do_bet(f32::INFINITY, false)?),
        Step::Award(seat, amount) => state.award(seat, amount)?,
        Step::Reward(seat) => same(state.player_reward(seat)?),
        Step::Query(seat) => assert_eq!(queries(state, seat), one_zero(answer)),
    }
    Ok(())
}

/// -0.0 as 0.0: two zeros are equal.
fn one_zero(answer: &str) -> String {
    answer.replace("80000000", "00000000")
}

fn float(x: f32) -> String {
    one_zero(&format!("{:08x}", lists::bits::of(x)))
}

/// In the order of the list `steps`.
fn queries(state: &GameState, seat: usize) -> String {
    [
        (state.is_raise_capped() as u8).to_string(),
        state.num_active_players().to_string(),
        state.num_all_in_players().to_string(),
        (state.is_complete() as u8).to_string(),
        state.to_act_idx().to_string(),
        float(state.current_player_stack()),
        float(state.current_player_starting_stack()),
        float(state.current_round_current_player_bet()),
        float(state.current_round_bet()),
        float(state.current_round_player_bet(seat)),
        state.current_round_num_active_players().to_string(),
        float(state.current_round_min_raise()),
    ]
    .join(" ")
}

#[test]
fn settlements_answer_as_dealt_chip_by_chip() {
    let mut draw = Draw::new(3);
    for _ in 0..1000 {
        let table = lists::pots::fair(&mut draw);
        let ranks = settlements::ranks(&mut draw, table.get(place::NUM_PLAYERS));
        let mut sixteen = [0; 16];
        sixteen[..ranks.len()].copy_from_slice(&ranks);
        let mut state = ours(&table);
        match settlement::settled(&table, &ranks) {
            Ok(after) => {
                let rewards = state.settle(&sixteen).expect("a fair table");
                assert_same(&state, &after, "settled");
                for (seat, reward) in rewards.into_iter().take(ranks.len()).enumerate() {
                    assert_eq!(Ok(reward as f32), state.player_reward(seat));
                }
            }
            Err(number) => assert_eq!(state.settle(&sixteen).unwrap_err().number(), number),
        }
    }
}

#[test]
fn where_the_rust_panics_a_number_is_given() {
    let builder = GameStateBuilder::new().stacks([1000.0, 1000.0]).big_blind(10.0);
    let mut table = builder.build().expect("a table");
    assert_eq!(table.award(2, 1.0), Err(GameStateError::BadSeat));
    assert_eq!(table.player_reward(usize::MAX), Err(GameStateError::BadSeat));
    for _ in 0..255 {
        table.do_bet(0.0, true).expect("a forced bet of nothing");
    }
    assert_eq!(table.do_bet(0.0, true), Err(GameStateError::CounterFull));
    let (&floats, &numbers) = table.words();
    let mut moved = numbers;
    moved[number::TO_ACT_IDX] = 2;
    assert_eq!(GameState::from_words(floats, moved), None);
    assert_eq!(GameState::from_words(floats, numbers), Some(table));
}
