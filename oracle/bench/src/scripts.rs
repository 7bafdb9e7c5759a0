//! A script of 65,536 bytes, the most there may be: hands of three seats one after the other.

use std::hint::black_box;
use std::sync::LazyLock;

use lists::scripts::player;
use peatcloak::sys;

/// To Preflop with antes, a raise, calls, a bet on the flop, a fold, the end and a settlement.
const HAND: &str = "t 0 10 5 1 500 400 300\nn\np 1\np 1\np 1\nn\nn\np 5\np 10\nb 10\nb 30\nb 30\nb 30\n\
                    n\nn\nb 0\nb 20\nf\nb 20\nx\nw 7 3 5\n";
const BYTES: usize = 65_536;
const LINE: usize = 72;

/// Whole hands, and a line of no form that fills it up.
static SCRIPT: LazyLock<Vec<u8>> = LazyLock::new(|| {
    let mut script = HAND.repeat(BYTES / HAND.len()).into_bytes();
    script.resize(BYTES, b'n');
    script
});

static LINES: LazyLock<usize> =
    LazyLock::new(|| SCRIPT.split_inclusive(|&byte| byte == b'\n').count());

/// Steps are scripts; `lines` says how many lines that is.
pub fn rust() -> u64 {
    let out = player::play(black_box(&SCRIPT));
    assert_eq!(black_box(&out).lines().count(), *LINES);
    1
}

pub fn ours() -> u64 {
    let mut out = vec![0; LINE * *LINES];
    let script = black_box(&SCRIPT);
    // SAFETY: both are there, are this long and do not overlap.
    let written =
        unsafe { sys::peatcloak_play(script.as_ptr(), script.len(), out.as_mut_ptr(), out.len()) };
    assert!(written > 0 && out[written - 1] == b'\n');
    black_box(&out);
    1
}

pub fn lines() -> usize {
    *LINES
}
