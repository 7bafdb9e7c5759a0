//! The right reading beside each tempting one.

use crate::draw::Draw;
use crate::journal::block::{self, BYTES, put_check};
use crate::journal::entry::{self, Entry, Four};
use crate::journal::hand::{self, Hand, Line};
use crate::journal::{EDITION, Title};
use crate::journals::tokens::spell;
use crate::key::Key;

const TITLE: Title = Title::new(Key::new(3, 2026, 7), EDITION);
const SMALLEST: &str = "t 0 10 5 0";
const HAND: &str = "t 0 10 5 0 100 100 n n n p 5 p 10 b 20 f w 0 0";

fn image(tape: &[Four]) -> Vec<u8> {
    hand::write(TITLE, tape).expect("a hand")
}

/// A table of two, and so many entries in all, with `n` for the rest.
fn long(entries: usize) -> Vec<Four> {
    let mut tape = spell("t 0 10 5 0 100 100");
    tape.resize(entries, [b'n', 0, 0, 0]);
    tape
}

/// With these bytes changed, and the check of each block put right.
fn changed(image: &[u8], changes: &[(usize, u8)]) -> Vec<u8> {
    let mut bytes = image.to_vec();
    changes.iter().for_each(|&(place, value)| bytes[place] = value);
    bytes.chunks_exact_mut(BYTES).for_each(put_check);
    bytes
}

fn entries(bytes: &[u8]) -> Result<usize, u32> {
    hand::read(bytes).map(|hand| hand.entries.len())
}

fn fours(hand: &Hand) -> Vec<Four> {
    hand.entries.iter().map(|entry| entry.bytes()).collect()
}

#[test]
fn the_sum_is_modulo_255_not_256() {
    let mut bytes = [0; BYTES];
    bytes[508..510].copy_from_slice(&[200, 100]);
    assert_eq!(block::check(&bytes)[0], 45);
    bytes[508..510].copy_from_slice(&[255, 0]);
    assert_eq!(block::check(&bytes), [0, 0]);
    bytes[508..510].copy_from_slice(&[254, 0]);
    assert_eq!(block::check(&bytes), [254, 253]);
}

#[test]
fn the_second_check_is_of_the_running_totals() {
    let check = |place: usize, value: u8| {
        let mut bytes = [0; BYTES];
        bytes[place] = value;
        block::check(&bytes)
    };
    assert_eq!([check(509, 1), check(508, 1), check(507, 2)], [[1, 1], [1, 2], [2, 6]]);
    // A byte is in the totals after it and in its own: 510 times, 509 times, 256 times, 255 times.
    assert_eq!([check(0, 9), check(1, 9)], [[9, 0], [9, 246]]);
    assert_eq!([check(254, 9), check(255, 9)], [[9, 9], [9, 0]]);
    assert_eq!([check(510, 9), check(511, 9)], [[0, 0], [0, 0]]);
}

#[test]
fn the_smallest_hand_byte_for_byte() {
    let bytes = image(&spell(SMALLEST));
    let mut all = [0; BYTES];
    all[..12].copy_from_slice(&[3, 0, 0xea, 0x07, 7, 0, 0, 0, 0, 1, 5, 1]);
    (all[16], all[26], all[30]) = (b't', 10, 5);
    (all[510], all[511]) = (134, 207);
    assert_eq!(bytes, all);
}

#[test]
fn the_key_stands_lowest_byte_first() {
    let title = Title::new(Key::new(0x0102, 0x0304, 0x0506_0708), EDITION);
    let bytes = hand::write(title, &spell(SMALLEST)).expect("a hand");
    assert_eq!(bytes[..8], [2, 1, 4, 3, 8, 7, 6, 5]);
    assert_eq!(hand::read(&bytes).expect("a hand").title, title);
}

#[test]
fn what_is_written_reads_back_line_by_line() {
    let hand = hand::read(&image(&spell(HAND))).expect("a hand");
    assert_eq!((hand.title, hand.blocks, hand.entries.len()), (TITLE, 1, 20));
    let lines = hand.lines();
    assert_eq!(lines.len(), 9);
    assert_eq!(lines[0], Line::new(b't', &[0, 10, 5, 0, 100, 100]));
    assert_eq!(lines[8], Line::new(b'w', &[0, 0]));
    assert_eq!(hand.line_at(10), Some((Line::new(b'p', &[5]), 12)));
    assert_eq!(hand.line_at(20), None);
}

#[test]
fn the_number_0_is_told_from_an_unused_entry_by_the_count_alone() {
    let bytes = image(&spell("t 0 10 5 0 9 9 b 0"));
    assert_eq!((bytes[10], &bytes[48..52]), (9, &[0; 4][..]));
    assert_eq!(entries(&bytes), Ok(9));
    // Without its number the line is none, with one more it is none either.
    assert_eq!(entries(&changed(&bytes, &[(10, 8)])), Err(27));
    assert_eq!(entries(&changed(&bytes, &[(10, 10)])), Err(27));
    let table = image(&spell("t 0 10 5 0 9 9"));
    assert_eq!(entries(&changed(&table, &[(10, 8)])), Ok(8));
}

#[test]
fn entries_over_the_count_are_zero() {
    let bytes = image(&spell(HAND));
    for place in [16 + 4 * 20, 16 + 4 * 20 + 2, 495] {
        assert_eq!(entries(&changed(&bytes, &[(place, b'n')])), Err(27), "{place}");
    }
    // The same entries, counted, are a hand.
    assert_eq!(entries(&changed(&bytes, &[(16 + 4 * 20, b'n'), (10, 21)])), Ok(21));
}

#[test]
fn zeros_stand_where_the_layout_has_them() {
    let bytes = image(&long(120));
    for place in (12..16).chain(496..510) {
        assert_eq!(entries(&changed(&bytes, &[(place, 1)])), Err(27), "{place}");
    }
}

#[test]
fn an_entry_is_a_letter_of_a_hand_or_a_number() {
    let words = [":00000001", ":00000100", ":00010001", ":00010074", ":00000174", ":0100006e"];
    for word in words.into_iter().chain(["k", "l", "T", "a", ":000000f4", ":0000ffff"]) {
        assert_eq!(Entry::of(spell(word)[0]), None, "{word}");
        assert_eq!(hand::write(TITLE, &spell(&format!("{HAND} {word}"))), Err(27), "{word}");
    }
    assert_eq!(Entry::of([0, 0, 2, 1]), Some(Entry::Number(258)));
    assert_eq!(Entry::of([0; 4]), Some(Entry::Number(0)));
}

#[test]
fn t_stands_first_and_nowhere_else() {
    let refused = ["", "n", "0", "b 20", "w", "t", "t 0 10 5", "0 t 0 10 5 0", "n t 0 10 5 0"];
    for text in refused {
        assert_eq!(hand::write(TITLE, &spell(text)), Err(27), "{text}");
    }
    for again in ["t 0 10 5 0 100 100", "n t 0 10 5 0 100 100 n", "t"] {
        let tape = spell(&format!("{HAND} {again}"));
        assert_eq!(hand::write(TITLE, &tape), Err(27), "{again}");
        let entries = entry::all(&tape).expect("entries");
        assert_eq!(hand::read(&block::made(TITLE, 0, true, &entries)), Err(27), "{again}");
    }
}

#[test]
fn a_t_at_the_head_of_the_second_block_is_a_second_t() {
    let mut tape = long(120);
    tape.extend(spell("t 0 10 5 0 100 100"));
    assert_eq!(hand::write(TITLE, &tape), Err(27));
    let entries = entry::all(&tape).expect("entries");
    let first = block::made(TITLE, 0, false, &entries[..120]);
    let second = block::made(TITLE, 1, true, &entries[120..]);
    assert!(block::read(&first).is_ok() && block::read(&second).is_ok());
    assert_eq!(hand::read(&[first, second].concat()), Err(27));
}

#[test]
fn keys_and_levels_are_no_lines_of_a_hand() {
    for line in ["k 3 2026 7", "k 0 0 0", "l 1 0 100 100"] {
        assert_eq!(hand::write(TITLE, &spell(&format!("{line} {HAND}"))), Err(27), "{line}");
        assert_eq!(hand::write(TITLE, &spell(&format!("{HAND} {line}"))), Err(27), "{line}");
    }
    assert_eq!(Line::new(b'k', &[3, 2026, 7]).laid(), Err(27));
}

#[test]
fn each_line_has_its_letters_count() {
    let bad = ["n 0", "f 0", "x 1", "b", "b 1 2", "p", "p 1 2", "w", "w 0", "w 0 0 0", "w 0 0 n 0"];
    for line in bad {
        assert_eq!(hand::write(TITLE, &spell(&format!("{HAND} {line}"))), Err(27), "{line}");
    }
    for line in ["n", "f", "x", "b 0", "p 65535", "w 0 65535"] {
        assert!(hand::write(TITLE, &spell(&format!("{HAND} {line}"))).is_ok(), "{line}");
    }
}

#[test]
fn w_has_as_many_ranks_as_its_hands_t_has_stacks() {
    let ranks = |stacks: usize, ranks: usize| {
        let text = format!("t 0 10 5 0{} w{}", " 9".repeat(stacks), " 1".repeat(ranks));
        hand::write(TITLE, &spell(&text)).map(|bytes| bytes.len() / BYTES)
    };
    for stacks in [0, 1, 2, 16, 17, 60] {
        assert_eq!(ranks(stacks, stacks), Ok((6 + 2 * stacks).div_ceil(120)), "{stacks}");
        assert_eq!(ranks(stacks, stacks + 1), Err(27), "{stacks}");
        assert_eq!(ranks(stacks + 1, stacks), Err(27), "{stacks}");
    }
}

#[test]
fn whether_a_line_would_be_accepted_is_not_asked() {
    let seventeen = format!("t 99 0 0 7{} b 1 w{}", " 9".repeat(17), " 1".repeat(17));
    assert_eq!(entries(&image(&spell(&seventeen))), Ok(42));
    assert_eq!(entries(&image(&spell(SMALLEST))), Ok(5));
}

#[test]
fn a_line_may_lie_over_two_blocks() {
    let mut tape = long(119);
    tape.extend(spell("b 20 w 1 2"));
    let bytes = image(&tape);
    assert_eq!((bytes.len(), bytes[10], bytes[BYTES + 10]), (1024, 120, 4));
    let hand = hand::read(&bytes).expect("a hand");
    assert_eq!(hand.line_at(119), Some((Line::new(b'b', &[20]), 121)));
    let alone = block::read(&bytes[BYTES..]).expect("a block");
    assert_eq!(alone.entries[0], Entry::Number(20));
}

#[test]
fn blocks_but_the_last_are_filled() {
    for (count, blocks, in_last) in [(119, 1, 119), (120, 1, 120), (121, 2, 1), (240, 2, 120)] {
        let bytes = image(&long(count));
        let last = &bytes[bytes.len() - BYTES..];
        assert_eq!((bytes.len() / BYTES, last[9], last[10]), (blocks, 1, in_last), "{count}");
        assert_eq!(entries(&bytes), Ok(count));
    }
    // 119 entries and then 2: the lines are right, the first block is not filled.
    let all = entry::all(&long(121)).expect("entries");
    let first = block::made(TITLE, 0, false, &all[..119]);
    let second = block::made(TITLE, 1, true, &all[119..]);
    assert_eq!(block::read(&first), Err(27));
    assert_eq!(hand::read(&[first, second].concat()), Err(27));
    assert_eq!(block::read(&changed(&image(&long(120)), &[(10, 121)])), Err(27));
    assert_eq!(block::read(&block::made(TITLE, 0, true, &[])), Err(27));
    assert_eq!(block::read(&block::made(TITLE, 1, true, &[])), Err(27));
    assert!(block::read(&block::made(TITLE, 1, true, &[Entry::Number(0)])).is_ok());
}

#[test]
fn a_hand_has_at_most_255_blocks() {
    let bytes = image(&long(30_600));
    assert_eq!((bytes.len(), bytes[254 * BYTES + 8]), (130_560, 254));
    assert_eq!(entries(&bytes), Ok(30_600));
    assert_eq!(hand::write(TITLE, &long(30_601)), Err(28));
    // Block 254 that is not the last is a block; 255 is no number of one.
    let open = changed(&bytes[254 * BYTES..], &[(9, 0)]);
    assert!(block::read(&open).is_ok());
    assert_eq!(block::read(&changed(&open, &[(8, 255)])), Err(27));
}

#[test]
fn refusals_27_come_before_28() {
    let no_year = Title::new(Key::new(3, 0, 7), EDITION);
    let no_key = Title::new(Key::NONE, EDITION);
    let hand = spell(HAND);
    assert_eq!(hand::write(no_key, &hand), Err(28));
    assert_eq!(hand::write(no_year, &hand), Err(28));
    assert_eq!(hand::write(no_year, &spell("n")), Err(27));
    assert_eq!(hand::write(no_key, &[]), Err(27));
    let mut tape = long(30_601);
    assert_eq!(hand::write(no_year, &tape), Err(28));
    tape.push([b't', 0, 0, 0]);
    assert_eq!(hand::write(TITLE, &tape), Err(27));
    for edition in [0, 2, 255] {
        assert_eq!(hand::write(Title::new(Key::NONE, edition), &hand), Err(27));
        assert_eq!(hand::write(Title::new(TITLE.key, edition), &long(30_601)), Err(27));
    }
}

#[test]
fn a_block_of_year_0_or_of_another_edition_is_refused() {
    let bytes = image(&spell(HAND));
    assert_eq!(block::read(&changed(&bytes, &[(2, 0), (3, 0)])), Err(27));
    assert!(block::read(&changed(&bytes, &[(2, 0)])).is_ok());
    assert!(block::read(&changed(&bytes, &[(3, 0)])).is_ok());
    for edition in [0, 2, 255] {
        assert_eq!(block::read(&changed(&bytes, &[(11, edition)])), Err(27));
    }
}

#[test]
fn only_the_final_block_is_marked_last() {
    let one = image(&long(120));
    let open = changed(&one, &[(9, 0)]);
    assert!(block::read(&open).is_ok());
    assert_eq!(hand::read(&open), Err(27));
    assert_eq!(block::read(&changed(&one, &[(9, 2)])), Err(27));
    let two = image(&long(240));
    assert_eq!(hand::read(&changed(&two, &[(9, 1)])), Err(27));
    assert_eq!(hand::read(&changed(&two, &[(BYTES + 9, 0)])), Err(27));
}

#[test]
fn blocks_stand_in_order_and_none_follows_the_last() {
    let bytes = image(&long(360));
    let of = |order: &[usize]| {
        let blocks = order.iter().map(|&at| &bytes[at * BYTES..(at + 1) * BYTES]);
        entries(&blocks.collect::<Vec<_>>().concat())
    };
    assert_eq!(of(&[0, 1, 2]), Ok(360));
    let others: [&[usize]; 11] = [
        &[],
        &[0],
        &[1],
        &[2],
        &[0, 2],
        &[1, 2],
        &[1, 0, 2],
        &[0, 2, 1],
        &[0, 0, 1, 2],
        &[0, 1, 2, 2],
        &[0, 1, 2, 0, 1, 2],
    ];
    for order in others {
        assert_eq!(of(order), Err(27), "{order:?}");
    }
    // A further block that would be right but for the last before it.
    let more = changed(&[&bytes[..], &bytes[2 * BYTES..]].concat(), &[(3 * BYTES + 8, 3)]);
    assert_eq!(entries(&more), Err(27));
    assert_eq!(entries(&changed(&more, &[(2 * BYTES + 9, 0)])), Ok(480));
}

#[test]
fn every_block_has_the_key_of_the_first() {
    let bytes = image(&long(240));
    for place in 0..8 {
        let other = changed(&bytes, &[(BYTES + place, bytes[place] ^ 1)]);
        assert!(block::read(&other[BYTES..]).is_ok());
        assert_eq!(entries(&other), Err(27), "{place}");
        let both = [(place, bytes[place] ^ 1), (BYTES + place, bytes[place] ^ 1)];
        assert_eq!(entries(&changed(&bytes, &both)), Ok(240), "{place}");
    }
}

#[test]
fn what_is_no_whole_hand_is_refused() {
    let bytes = image(&long(240));
    for length in [0, 1, 511, 512, 513, 1023] {
        assert_eq!(entries(&bytes[..length]), Err(27), "{length}");
    }
    let longer = [&bytes[..], &[0; BYTES]].concat();
    for length in [1025, 1535, 1536] {
        assert_eq!(entries(&longer[..length]), Err(27), "{length}");
    }
    let one = image(&spell(HAND));
    assert_eq!(block::read(&one[..511]), Err(27));
    assert_eq!(block::read(&[&one[..], &[0]].concat()), Err(27));
}

#[test]
fn a_check_byte_of_255_is_refused_where_0_is_right() {
    for place in [510, 511] {
        let zero = (0..5000).find_map(|hand| {
            let title = Title::new(Key::new(3, 2026, hand), EDITION);
            let bytes = hand::write(title, &spell(HAND)).expect("a hand");
            (bytes[place] == 0).then_some(bytes)
        });
        let mut bytes = zero.expect("one hand in 255");
        assert_eq!(entries(&bytes), Ok(20));
        bytes[place] = 255;
        assert_eq!(entries(&bytes), Err(27));
    }
}

#[test]
fn every_damage_of_one_bit_is_found() {
    let bytes = image(&spell(HAND));
    for bit in 0..8 * BYTES {
        let mut other = bytes.clone();
        other[bit / 8] ^= 1 << (bit % 8);
        assert_eq!(entries(&other), Err(27), "{bit}");
    }
}

#[test]
fn every_change_of_one_byte_is_found_but_0_to_255_and_back() {
    let bytes = image(&spell("t 255 65535 0 255 100 0 b 0 b 255 b 65280"));
    let mut read = Vec::new();
    for (place, value) in (0..BYTES).flat_map(|place| (0..=255).map(move |value| (place, value))) {
        let mut other = bytes.clone();
        other[place] = value;
        if value != bytes[place] && entries(&other).is_ok() {
            assert_eq!(u16::from(value) + u16::from(bytes[place]), 255, "{place}");
            read.push(place);
        }
    }
    // The numbers' bytes, and those of the key that are 0.
    assert_eq!(read[..5], [1, 5, 6, 7, 22]);
    assert_eq!(read.len(), 4 + 2 * 9 - 1);
}

#[test]
fn two_bytes_255_places_apart_may_hide_each_other() {
    let mut bytes = image(&spell(&format!("{HAND}{}", " b 513".repeat(50))));
    let high = (16..255).find(|&at| bytes[at] == 2 && bytes[at + 255] == 1).expect("two numbers");
    (bytes[high], bytes[high + 255]) = (3, 0);
    assert_eq!(entries(&bytes), Ok(120));
    (bytes[high], bytes[high + 254]) = (2, bytes[high + 254] + 1);
    assert_eq!(entries(&bytes), Err(27));
}

#[test]
fn a_hand_is_laid_block_by_block() {
    let tape = long(250);
    let bytes = image(&tape);
    for index in 0..3 {
        let (block, more) = block::lay(TITLE, index as u8, &tape[120 * index..]).expect("a block");
        assert_eq!(block, bytes[BYTES * index..BYTES * (index + 1)]);
        assert_eq!(more, index < 2);
    }
}

#[test]
fn what_one_block_needs_to_be_laid() {
    let tape = long(241);
    let lay = |title, index, rest: &[Four]| block::lay(title, index, rest).map(|(_, more)| more);
    assert_eq!(lay(TITLE, 0, &[]), Err(27));
    assert_eq!(lay(TITLE, 255, &[]), Err(27));
    assert_eq!(lay(TITLE, 254, &tape[..120]), Ok(false));
    assert_eq!(lay(TITLE, 254, &tape[..121]), Err(28));
    assert_eq!(lay(TITLE, 253, &tape[..240]), Ok(true));
    assert_eq!(lay(TITLE, 253, &tape), Err(28));
    assert_eq!(lay(TITLE, 255, &tape[..1]), Err(28));
    assert_eq!(lay(Title::new(Key::new(3, 0, 7), EDITION), 0, &tape), Err(28));
    assert_eq!(lay(Title::new(Key::NONE, 2), 0, &tape), Err(27));
    // An entry that is none is seen in its own block only.
    let mut none = tape.clone();
    none[120] = *b"k\0\0\0";
    assert_eq!(lay(TITLE, 0, &none), Ok(true));
    assert_eq!(lay(TITLE, 255, &none[120..]), Err(27));
}

#[test]
fn a_hand_has_one_image() {
    let mut draw = Draw::new(3);
    let bytes = image(&spell(&format!("{HAND}{}", " b 255 p 0".repeat(40))));
    let mut read = 0;
    for _ in 0..20_000 {
        let blocks = bytes.len() / BYTES;
        let one = BYTES * draw.below(blocks) + draw.pick(&[0, 2, 4, 8, 9, 10, 11, 12, 505]);
        let places = [one, draw.below(bytes.len()), draw.below(bytes.len())];
        let changes: Vec<_> = places[draw.below(3)..]
            .iter()
            .map(|&place| (place, draw.pick(&[0, 1, 2, 255, b'b'])))
            .collect();
        let other = changed(&bytes, &changes);
        if let Ok(hand) = hand::read(&other) {
            assert_eq!(hand::write(hand.title, &fours(&hand)), Ok(other));
            read += 1;
        }
    }
    assert!((2_000..18_000).contains(&read), "{read} of them were read");
}
