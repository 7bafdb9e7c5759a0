//! The journal's calls at the boundary: lists that are too short, words out of range, and what a refusal leaves.

use peatcloak::journal::{BLOCK, EDITION};
use peatcloak::places::{FLOATS, NUMBERS};
use peatcloak::sys;

/// What stands in a list before a call, and must stand there after one that writes nothing.
const BYTE: u8 = 0xa5;
const WORD: u32 = 0xa5a5_a5a5;
const HALF: u16 = 0xa5a5;

const TITLE: [u32; 4] = [3, 2026, 7, EDITION as u32];

fn number(n: u32) -> u32 {
    n * 65_536
}

/// `t 0 10 5 0 100 100`, `f`.
fn tape() -> Vec<u32> {
    let numbers = [0, 10, 5, 0, 100, 100].map(number);
    [vec![u32::from(b't')], numbers.to_vec(), vec![u32::from(b'f')]].concat()
}

fn put_line(tape: &mut [u32], used: usize, letter: u32, numbers: &[u16], out: &mut [u32]) -> u32 {
    let (t, n, o) = (tape.as_mut_ptr(), numbers.as_ptr(), out.as_mut_ptr());
    // SAFETY: all are there, are this long and do not overlap.
    unsafe { sys::peatcloak_put_line(t, tape.len(), used, letter, n, numbers.len(), o, out.len()) }
}

fn write_hand(title: &[u32], tape: &[u32], bytes: &mut [u8], out: &mut [u32]) -> u32 {
    let (t, w, b, o) = (title.as_ptr(), tape.as_ptr(), bytes.as_mut_ptr(), out.as_mut_ptr());
    // SAFETY: as above.
    unsafe {
        sys::peatcloak_write_hand(t, title.len(), w, tape.len(), b, bytes.len(), o, out.len())
    }
}

fn write_block(title: &[u32], index: u32, rest: &[u32], bytes: &mut [u8], out: &mut [u32]) -> u32 {
    let (t, w, b, o) = (title.as_ptr(), rest.as_ptr(), bytes.as_mut_ptr(), out.as_mut_ptr());
    // SAFETY: as above.
    unsafe {
        sys::peatcloak_write_block(
            t,
            title.len(),
            index,
            w,
            rest.len(),
            b,
            bytes.len(),
            o,
            out.len(),
        )
    }
}

fn read_block(bytes: &[u8], head: &mut [u32]) -> u32 {
    // SAFETY: as above.
    unsafe { sys::peatcloak_read_block(bytes.as_ptr(), bytes.len(), head.as_mut_ptr(), head.len()) }
}

fn read_hand(bytes: &[u8], head: &mut [u32]) -> u32 {
    // SAFETY: as above.
    unsafe { sys::peatcloak_read_hand(bytes.as_ptr(), bytes.len(), head.as_mut_ptr(), head.len()) }
}

fn line_at(bytes: &[u8], at: usize, line: &mut [u32], numbers: &mut [u16]) -> u32 {
    let (b, l, n) = (bytes.as_ptr(), line.as_mut_ptr(), numbers.as_mut_ptr());
    // SAFETY: as above.
    unsafe { sys::peatcloak_line_at(b, bytes.len(), at, l, line.len(), n, numbers.len()) }
}

fn replay_hand(floats: &mut [f32], numbers: &mut [u32], bytes: &[u8], out: &mut [u32]) -> u32 {
    let (f, n, b, o) =
        (floats.as_mut_ptr(), numbers.as_mut_ptr(), bytes.as_ptr(), out.as_mut_ptr());
    // SAFETY: as above.
    unsafe {
        sys::peatcloak_replay_hand(f, floats.len(), n, numbers.len(), b, bytes.len(), o, out.len())
    }
}

fn image() -> Vec<u8> {
    let mut bytes = vec![0; BLOCK];
    assert_eq!(write_hand(&TITLE, &tape(), &mut bytes, &mut [0]), 0);
    bytes
}

#[test]
fn a_line_is_laid_behind_the_others_or_nothing_is_written() {
    let mut laid = [WORD; 10];
    let mut out = [WORD; 2];
    assert_eq!(put_line(&mut laid, 0, b't'.into(), &[0, 10, 5, 0, 100, 100], &mut out), 0);
    assert_eq!(out, [7, WORD]);
    assert_eq!(put_line(&mut laid, 7, b'f'.into(), &[], &mut out), 0);
    assert_eq!((&laid[..8], &laid[8..], out), (&tape()[..], &[WORD; 2][..], [8, WORD]));
    // No byte, no letter; a count that the letter never has; no room; used past the end.
    let none: &[u16] = &[];
    let refused: [(usize, u32, &[u16], u32); 9] = [
        (8, 256 + u32::from(b'f'), none, 27),
        (8, u32::MAX, none, 27),
        (8, 0, none, 27),
        (8, b'b'.into(), none, 27),
        (11, b'b'.into(), none, 27),
        (9, b'b'.into(), &[1], 19),
        (10, b'f'.into(), none, 19),
        (11, b'f'.into(), none, 19),
        (usize::MAX, b'b'.into(), &[1], 19),
    ];
    for (used, letter, numbers, expected) in refused {
        let before = (laid, out);
        assert_eq!(put_line(&mut laid, used, letter, numbers, &mut out), expected);
        assert_eq!((laid, out), before, "{used} {letter}");
    }
    // An empty out comes before a bad line.
    let before = laid;
    assert_eq!(put_line(&mut laid, 8, b'q'.into(), &[], &mut []), 19);
    assert_eq!(laid, before);
    // The last place that there is.
    assert_eq!(put_line(&mut laid, 8, b'b'.into(), &[20], &mut out), 0);
    assert_eq!((&laid[8..], out[0]), (&[u32::from(b'b'), number(20)][..], 10));
}

#[test]
fn a_hand_is_refused_in_the_order_19_27_28_19() {
    let (good, bad) = (tape(), tape()[1..].to_vec());
    let mut big = tape();
    big.resize(30_601, b'f'.into());
    let no_year = [3, 0, 7, 1];
    let refused: [(&[u32], &[u32], usize, u32); 12] = [
        (&TITLE[..3], &bad, 0, 19),
        (&[65_536, 2026, 7, 1], &bad, 0, 19),
        (&[3, 65_536, 7, 1], &bad, 0, 19),
        (&[3, 2026, 7, 256], &bad, 0, 19),
        (&[3, 2026, 7, 257], &good, BLOCK, 19),
        (&[3, 0, 7, 2], &good, 0, 27),
        (&no_year, &bad, 0, 27),
        (&TITLE, &[], BLOCK, 27),
        (&no_year, &good, 0, 28),
        (&no_year, &good, BLOCK, 28),
        (&TITLE, &big, 0, 28),
        (&TITLE, &big, 256 * BLOCK, 28),
    ];
    for (title, tape, room, expected) in refused {
        let (mut bytes, mut out) = (vec![BYTE; room], [WORD]);
        assert_eq!(write_hand(title, tape, &mut bytes, &mut out), expected, "{title:?}");
        assert_eq!((bytes, out), (vec![BYTE; room], [WORD]));
    }
}

#[test]
fn with_too_little_room_only_the_blocks_that_a_hand_needs_are_told() {
    let mut most = tape();
    most.resize(30_600, b'f'.into());
    for room in [0, BLOCK - 1] {
        let (mut bytes, mut out) = (vec![BYTE; room], [WORD; 2]);
        assert_eq!(write_hand(&TITLE, &tape(), &mut bytes, &mut out), 19);
        assert_eq!((bytes, out), (vec![BYTE; room], [1, WORD]));
    }
    let (mut bytes, mut out) = (vec![BYTE; 254 * BLOCK], [WORD]);
    assert_eq!(write_hand(&TITLE, &most, &mut bytes, &mut out), 19);
    assert_eq!((bytes, out), (vec![BYTE; 254 * BLOCK], [255]));
}

#[test]
fn an_empty_out_is_19_whatever_else_there_is() {
    let mut bytes = vec![BYTE; BLOCK];
    assert_eq!(write_hand(&TITLE, &[], &mut bytes, &mut []), 19);
    assert_eq!(write_hand(&TITLE, &tape(), &mut bytes, &mut []), 19);
    assert_eq!(write_block(&TITLE, 0, &[], &mut bytes, &mut []), 19);
    assert_eq!(write_block(&TITLE, 0, &tape(), &mut bytes, &mut []), 19);
    assert_eq!(bytes, [BYTE; BLOCK]);
}

#[test]
fn what_stands_behind_a_hand_stays() {
    // A title's words behind the fourth are not looked at.
    let (mut bytes, mut out) = (vec![BYTE; BLOCK + 9], [WORD; 2]);
    assert_eq!(write_hand(&[3, 2026, 7, 1, WORD], &tape(), &mut bytes, &mut out), 0);
    assert_eq!((&bytes[..BLOCK], &bytes[BLOCK..], out), (&image()[..], &[BYTE; 9][..], [1, WORD]));
}

/// Title, index, what is left, room, and the number.
type Block<'a> = (&'a [u32], u32, &'a [u32], usize, u32);

#[test]
fn a_block_is_refused_in_the_order_19_27_28_19() {
    let mut full = tape();
    full.resize(121, b'f'.into());
    let no_entry = [7];
    let refused: [Block; 13] = [
        (&TITLE[..3], 0, &no_entry, 0, 19),
        (&[3, 65_536, 7, 1], 0, &no_entry, 0, 19),
        (&TITLE, 256, &no_entry, 0, 19),
        (&TITLE, u32::MAX, &full, BLOCK, 19),
        (&TITLE, 0, &no_entry, 0, 27),
        (&TITLE, 0, &[], BLOCK, 27),
        (&[3, 0, 7, 2], 255, &full, BLOCK, 27),
        (&[3, 0, 7, 1], 0, &full, 0, 28),
        (&TITLE, 254, &full, BLOCK, 28),
        (&TITLE, 255, &full[..1], BLOCK, 28),
        (&TITLE, 255, &no_entry, BLOCK, 27),
        (&TITLE, 254, &full[..120], BLOCK - 1, 19),
        (&TITLE, 0, &full, 0, 19),
    ];
    for (title, index, rest, room, expected) in refused {
        let (mut bytes, mut out) = (vec![BYTE; room], [WORD]);
        assert_eq!(
            write_block(title, index, rest, &mut bytes, &mut out),
            expected,
            "{title:?} {index}"
        );
        assert_eq!((bytes, out), (vec![BYTE; room], [WORD]));
    }
}

#[test]
fn a_block_tells_whether_another_follows() {
    let mut full = tape();
    full.resize(120, b'f'.into());
    // An entry that is none is not looked at before its own block.
    full.push(7);
    for (index, rest, follows) in [(0, &full[..], 1), (254, &full[..120], 0), (9, &full[..1], 0)] {
        let (mut bytes, mut out) = (vec![BYTE; BLOCK + 1], [WORD; 2]);
        assert_eq!(write_block(&TITLE, index, rest, &mut bytes, &mut out), 0);
        assert_eq!((bytes[BLOCK], out), (BYTE, [follows, WORD]));
        let mut head = [WORD; 8];
        assert_eq!(read_block(&bytes[..BLOCK], &mut head), 0);
        let used = rest.len().min(120) as u32;
        assert_eq!(head, [3, 2026, 7, 1, index, 1 - follows, used, WORD]);
    }
}

#[test]
fn what_is_read_is_told_whole_or_not_at_all() {
    let image = image();
    for len in 0..9 {
        let mut head = vec![WORD; len];
        assert_eq!(read_block(&image, &mut head), if len < 7 { 19 } else { 0 });
        let told = [3, 2026, 7, 1, 0, 1, 8];
        assert_eq!(
            head,
            if len < 7 { vec![WORD; len] } else { [&told, &vec![WORD; len - 7][..]].concat() }
        );
        let mut head = vec![WORD; len];
        assert_eq!(read_hand(&image, &mut head), if len < 6 { 19 } else { 0 });
        let told = [3, 2026, 7, 1, 1, 8];
        assert_eq!(
            head,
            if len < 6 { vec![WORD; len] } else { [&told, &vec![WORD; len - 6][..]].concat() }
        );
    }
    // 19 comes before 27, and 27 tells nothing.
    for bytes in [
        &image[..0],
        &image[..BLOCK - 1],
        &[image.clone(), image.clone()].concat()[..],
        &[0; BLOCK],
    ] {
        let mut head = [WORD; 7];
        assert_eq!((read_block(bytes, &mut head[..6]), read_hand(bytes, &mut head[..5])), (19, 19));
        assert_eq!((read_block(bytes, &mut head), read_hand(bytes, &mut head)), (27, 27));
        assert_eq!(head, [WORD; 7]);
    }
}

/// Letter, count, the entry after it and twenty numbers; nothing is written behind them.
fn told(bytes: &[u8], at: usize) -> (u32, u32, u32, Vec<u16>) {
    let (mut line, mut numbers) = ([WORD; 4], [HALF; 21]);
    assert_eq!(line_at(bytes, at, &mut line, &mut numbers), 0);
    assert_eq!((line[3], numbers[20]), (WORD, HALF));
    let [letter, count, next, _] = line;
    (letter, count, next, numbers[..20].to_vec())
}

/// Twenty numbers, the rest zeros.
fn padded(numbers: &[u16]) -> Vec<u16> {
    [numbers, &vec![0; 20 - numbers.len()][..]].concat()
}

#[test]
fn a_line_is_told_with_the_entry_after_it() {
    let image = image();
    assert_eq!(told(&image, 0), (b't'.into(), 6, 7, padded(&[0, 10, 5, 0, 100, 100])));
    assert_eq!(told(&image, 7), (b'f'.into(), 0, 8, padded(&[])));
    for end in [8, 9, 120, 30_600] {
        assert_eq!(told(&image, end), (0, 0, end as u32, padded(&[])));
    }
    assert_eq!(told(&[], 0), (0, 0, 0, padded(&[])));
}

#[test]
fn a_line_with_no_room_to_tell_it_is_19() {
    for (line_len, numbers_len) in [(2, 20), (3, 19), (0, 0)] {
        let (mut line, mut numbers) = (vec![WORD; line_len], vec![HALF; numbers_len]);
        assert_eq!(line_at(&image(), 0, &mut line, &mut numbers), 19);
        assert_eq!((line, numbers), (vec![WORD; line_len], vec![HALF; numbers_len]));
    }
}

#[test]
fn of_a_long_line_the_count_and_the_first_twenty_numbers_are_told() {
    // The second lies over two blocks.
    let mut long = tape();
    long.resize(110, b'f'.into());
    long[0..25].copy_from_slice(&[vec![u32::from(b't')], (1..25).map(number).collect()].concat());
    long.extend([vec![u32::from(b'w')], (1..21).map(number).collect()].concat());
    let mut bytes = vec![0; 2 * BLOCK];
    assert_eq!(write_hand(&TITLE, &long, &mut bytes, &mut [0]), 0);
    assert_eq!(told(&bytes, 0), (b't'.into(), 24, 25, (1..21).collect()));
    assert_eq!(told(&bytes, 110), (b'w'.into(), 20, 131, (1..21).collect()));
}

#[test]
fn a_replay_writes_a_table_or_tells_the_line() {
    let image = image();
    let (floats, numbers) = (vec![f32::NAN; FLOATS], vec![u32::MAX; NUMBERS]);
    let bits = |floats: &[f32]| floats.iter().map(|x| x.to_bits()).collect::<Vec<_>>();
    let play = |lens: [usize; 3], bytes: &[u8]| {
        let (mut f, mut n, mut out) =
            (floats[..lens[0]].to_vec(), numbers[..lens[1]].to_vec(), vec![WORD; lens[2]]);
        let refused = replay_hand(&mut f, &mut n, bytes, &mut out);
        let untouched = bits(&f) == bits(&floats[..lens[0]]) && n == numbers[..lens[1]];
        assert_eq!(untouched, refused != 0, "a table is laid exactly where the hand is accepted");
        (refused, out)
    };
    let whole = [FLOATS, NUMBERS, 1];
    assert_eq!(play(whole, &image), (0, vec![2]));
    for short in
        [[FLOATS - 1, NUMBERS, 1], [FLOATS, NUMBERS - 1, 1], [FLOATS, NUMBERS, 0], [0, 0, 0]]
    {
        for bytes in [&image[..], &[]] {
            assert_eq!(play(short, bytes), (19, vec![WORD; short[2]]));
        }
    }
    // 27 tells nothing; a line that is refused is told.
    assert_eq!(play(whole, &image[1..]), (27, vec![WORD]));
    let mut refused = tape();
    refused.extend([u32::from(b'b'), number(1)]);
    let mut bytes = vec![0; BLOCK];
    assert_eq!(write_hand(&TITLE, &refused, &mut bytes, &mut [0]), 0);
    let (number, out) = play(whole, &bytes);
    assert!(number != 0 && number != 19 && number != 27, "{number}");
    assert_eq!(out, [2]);
}
