//! Round data alone against the Rust's.

use lists::amounts;
use lists::carry::{bits_of, set_of};
use lists::draw::Draw;
use peatcloak::arena::RoundData;
use peatcloak::arena::errors::GameStateError;
use peatcloak::core::PlayerBitSet;

type Theirs = rs_poker::arena::RoundData;

fn equal(a: f32, b: f32) -> bool {
    a == b || a.is_nan() && b.is_nan()
}

fn assert_same(ours: &RoundData, theirs: &Theirs) {
    assert_eq!(ours.needs_action().bits(), bits_of(theirs.needs_action));
    assert_eq!(ours.starting_player_active().bits(), bits_of(theirs.starting_player_active));
    assert!(equal(ours.min_raise(), theirs.min_raise) && equal(ours.bet(), theirs.bet));
    assert_eq!(ours.player_bet().len(), theirs.player_bet.len());
    assert!(ours.player_bet().iter().zip(&theirs.player_bet).all(|(&a, &b)| equal(a, b)));
    assert_eq!(ours.total_bet_count(), theirs.total_bet_count);
    assert_eq!(ours.total_raise_count(), theirs.total_raise_count);
    assert_eq!(ours.forced_bet_count(), theirs.forced_bet_count);
    assert_eq!(ours.to_act_idx(), theirs.to_act_idx);
    assert_eq!(ours.num_players_need_action(), theirs.num_players_need_action());
    assert_eq!(ours.is_action_unopened(), theirs.is_action_unopened());
    assert!(equal(ours.current_player_bet(), theirs.current_player_bet()));
}

#[test]
fn round_data_is_made_and_used_as_there() {
    let mut draw = Draw::new(1);
    for _ in 0..4000 {
        let n = draw.within(1, 16);
        let (active, to_act, min_raise) = (draw.seats(n), draw.below(n), amounts::any(&mut draw));
        let set = PlayerBitSet::from_bits(active);
        let bets: Vec<f32> = (0..n).map(|_| amounts::any(&mut draw)).collect();
        let (made, mut theirs) = if draw.once_in(2) {
            let theirs = Theirs::new(n, min_raise, set_of(active), to_act);
            (RoundData::new(n, min_raise, set, to_act), theirs)
        } else {
            let theirs = Theirs::new_with_bets(min_raise, set_of(active), to_act, bets.clone());
            (RoundData::new_with_bets(min_raise, set, to_act, &bets), theirs)
        };
        let mut ours = made.expect("its parts are good");
        assert_same(&ours, &theirs);
        for _ in 0..20 {
            if draw.once_in(3) {
                ours.advance_action();
                theirs.advance_action();
            } else {
                let (extra, is_forced) = (amounts::any(&mut draw), draw.once_in(3));
                ours.do_bet(extra, is_forced).expect("no counter is full");
                theirs.do_bet(extra, is_forced);
            }
            assert_same(&ours, &theirs);
        }
    }
}

#[test]
fn where_the_rust_panics_or_loops_a_number_is_given() {
    let outside = PlayerBitSet::from_bits(0b10);
    assert_eq!(RoundData::new(1, 1.0, outside, 0), Err(GameStateError::BadRecord));
    let nobody = PlayerBitSet::default();
    assert_eq!(RoundData::new(0, 1.0, nobody, 0), Err(GameStateError::BadRecord));
    assert_eq!(RoundData::new(1, 1.0, nobody, 1), Err(GameStateError::BadRecord));
    assert_eq!(RoundData::new_with_bets(1.0, nobody, 0, [0.0; 17]), Err(GameStateError::BadRecord));
    let mut data = RoundData::new(1, 1.0, nobody, 0).expect("one seat");
    for _ in 0..255 {
        data.do_bet(0.0, true).expect("a counter with room");
    }
    assert_eq!(data.do_bet(0.0, true), Err(GameStateError::CounterFull));
}
