//! Sets of seats against the Rust's.

use lists::carry::{bits_of, set_of};
use peatcloak::core::PlayerBitSet;

#[test]
fn every_set_has_the_rusts_seats() {
    for bits in 0..=u16::MAX {
        let (ours, theirs) = (PlayerBitSet::from_bits(bits), set_of(bits));
        assert_eq!(ours.count(), theirs.count());
        assert_eq!(ours.empty(), theirs.empty());
        assert!(ours.ones().eq(theirs.ones()), "{ours}");
    }
}

#[test]
fn a_seat_is_put_in_and_taken_out_as_there() {
    for bits in (0..=u16::MAX).step_by(37) {
        for idx in 0..16 {
            let (mut ours, mut theirs) = (PlayerBitSet::from_bits(bits), set_of(bits));
            assert_eq!(ours.get(idx), Ok(theirs.get(idx)));
            ours.enable(idx).expect("a seat below 16");
            theirs.enable(idx);
            assert_eq!(ours.bits(), bits_of(theirs));
            ours.disable(idx).expect("a seat below 16");
            theirs.disable(idx);
            assert_eq!(ours.bits(), bits_of(theirs));
            assert_eq!(ours.to_string(), theirs.to_string());
        }
    }
}

#[test]
fn sets_are_joined_and_met_as_there() {
    for (a, b) in (0..=u16::MAX).step_by(41).zip((0..=u16::MAX).rev().step_by(43)) {
        let (one, other) = (PlayerBitSet::from_bits(a), PlayerBitSet::from_bits(b));
        assert_eq!((one | other).bits(), bits_of(set_of(a) | set_of(b)));
        assert_eq!((one & other).bits(), bits_of(set_of(a) & set_of(b)));
    }
}

#[test]
fn where_the_rust_panics_a_number_is_given() {
    assert_eq!(PlayerBitSet::new(16).map(PlayerBitSet::bits), Ok(u16::MAX));
    let mut set = PlayerBitSet::new(3).expect("three seats");
    for outside in [16, 17, 65_536, 1 << 32, usize::MAX] {
        assert_eq!(PlayerBitSet::new(outside.max(17)).unwrap_err().number(), 3);
        assert_eq!(set.enable(outside).unwrap_err().number(), 20);
        assert_eq!(set.disable(outside).unwrap_err().number(), 20);
        assert_eq!(set.get(outside).unwrap_err().number(), 20);
    }
    assert_eq!(set.bits(), 0b111);
}
