//! Hands written and read, by the library and by a plain C program, in one run.

use std::hint::black_box;
use std::time::Instant;

unsafe extern "C" {
    fn peatcloak_write_hand(
        title: *const u32,
        title_len: usize,
        tape: *const u32,
        tape_len: usize,
        bytes: *mut u8,
        bytes_len: usize,
        out: *mut u32,
        out_len: usize,
    ) -> u32;
    fn peatcloak_read_hand(bytes: *const u8, bytes_len: usize, head: *mut u32, len: usize) -> u32;
    fn plain_write(title: *const u32, tape: *const u32, n: usize, out: *mut u8) -> usize;
    fn plain_read(bytes: *const u8, n: usize) -> usize;
}

/// The hands of a card, and how often each card is gone through in a round.
const CARDS: [(usize, usize); 5] = [(1, 8192), (10, 1024), (100, 128), (1_000, 16), (4_096, 4)];

const ROUNDS: usize = 21;

/// Two blocks: a table of six, and bets.
const ENTRIES: usize = 200;
const BYTES: usize = 1_024;

fn tape() -> Vec<u32> {
    let table = [0u32, 10, 5, 0, 100, 200, 300, 400, 500, 600];
    let mut tape = vec![u32::from(b't')];
    tape.extend(table.map(|n| n << 16));
    while tape.len() + 2 <= ENTRIES {
        tape.extend([u32::from(b'b'), (tape.len() as u32) << 16]);
    }
    tape.resize(ENTRIES, u32::from(b'n'));
    tape
}

fn title(hand: usize) -> [u32; 4] {
    [3, 2026, hand as u32, 1]
}

fn ours_written(tape: &[u32], card: &mut [u8]) {
    for (hand, bytes) in card.chunks_mut(BYTES).enumerate() {
        let (title, mut out) = (title(hand), [0]);
        // SAFETY: all are there, are this long and do not overlap.
        let refused = unsafe {
            peatcloak_write_hand(
                title.as_ptr(),
                4,
                tape.as_ptr(),
                tape.len(),
                bytes.as_mut_ptr(),
                bytes.len(),
                out.as_mut_ptr(),
                1,
            )
        };
        assert_eq!((refused, out[0]), (0, 2));
    }
}

fn plain_written(tape: &[u32], card: &mut [u8]) {
    for (hand, bytes) in card.chunks_mut(BYTES).enumerate() {
        // SAFETY: the hand has two blocks, and so many bytes are there.
        let blocks = unsafe {
            plain_write(title(hand).as_ptr(), tape.as_ptr(), tape.len(), bytes.as_mut_ptr())
        };
        assert_eq!(blocks, 2);
    }
}

fn ours_read(_: &[u32], card: &mut [u8]) {
    for bytes in card.chunks(BYTES) {
        let mut head = [0; 6];
        // SAFETY: both are there, are this long and do not overlap.
        let refused =
            unsafe { peatcloak_read_hand(bytes.as_ptr(), bytes.len(), head.as_mut_ptr(), 6) };
        assert_eq!((refused, head[5] as usize), (0, ENTRIES));
    }
}

fn plain_was_read(_: &[u32], card: &mut [u8]) {
    for bytes in card.chunks(BYTES) {
        // SAFETY: the bytes are there.
        assert_eq!(unsafe { plain_read(bytes.as_ptr(), bytes.len()) }, ENTRIES);
    }
}

type Work = fn(&[u32], &mut [u8]);

/// Seconds for a card gone through so often.
fn seconds(work: Work, tape: &[u32], card: &mut [u8], times: usize) -> f64 {
    let begun = Instant::now();
    (0..times).for_each(|_| work(tape, black_box(card)));
    begun.elapsed().as_secs_f64()
}

/// The least of the rounds, which take turns.
fn least(works: [Work; 4], tape: &[u32], card: &mut [u8], times: usize) -> [f64; 4] {
    let mut least = [f64::INFINITY; 4];
    for _ in 0..ROUNDS {
        for (least, work) in least.iter_mut().zip(works) {
            *least = least.min(seconds(work, tape, card, times));
        }
    }
    least
}

pub fn tell() {
    println!("\njournal, MB a second, ours and plain C (cc -O2), and our time over C's; goal 1.3");
    let tape = tape();
    for (hands, times) in CARDS {
        let mut card = vec![0; BYTES * hands];
        let works = [ours_written, plain_written, ours_read, plain_was_read];
        let [ow, pw, or, pr] = least(works, &tape, &mut card, times);
        let rate = |seconds: f64| (card.len() * times) as f64 / 1e6 / seconds;
        println!(
            "{hands:5} hands: written {:5.0} {:5.0} {:.2}, read {:5.0} {:5.0} {:.2}",
            rate(ow),
            rate(pw),
            ow / pw,
            rate(or),
            rate(pr),
            or / pr
        );
    }
}
