//! Damages at random. After each the image is read, and is then again what was written.

use crate::draw::Draw;
use crate::journal::block::{self, BYTES, Bytes, CHECK, ENTRIES};
use crate::journal::entry::Four;
use crate::journal::hand;
use crate::journals::card::{Card, Change};
use crate::journals::drawn;
use crate::journals::tokens::spell;

/// One damage in one block, or of the blocks' order. Where the image is still a hand, the entries that were changed
/// are told.
pub fn damage(draw: &mut Draw, card: &mut Card) {
    let block = draw.below(card.blocks());
    let before = card.image.clone();
    if draw.once_in(3) {
        move_blocks(draw, card, block);
    } else {
        change_bytes(draw, card, block);
    }
    let _ = card.read_block(block);
    if card.read().is_ok() {
        tell_changes(card, &before);
    }
    card.restore();
}

/// The first entries that differ from those before.
fn tell_changes(card: &mut Card, before: &[u8]) {
    let places = (0..before.len().min(card.image.len())).filter(|&at| card.image[at] != before[at]);
    let mut entries: Vec<usize> = places.filter_map(entry_of).collect();
    entries.dedup();
    entries.into_iter().take(4).for_each(|at| card.tell_entry(at));
}

/// The entry that a place of an image belongs to, if it is one of an entry.
fn entry_of(place: usize) -> Option<usize> {
    Some(place / BYTES * ENTRIES + block::entry_of(place % BYTES)?)
}

fn change_bytes(draw: &mut Draw, card: &mut Card, block: usize) {
    match draw.below(10) {
        0..=1 => one_bit(draw, card, block),
        2 => one_byte(draw, card, block),
        3..=4 => zero_for_255(draw, card, block),
        5 => some_bytes_rightly(draw, card, block),
        6 => head_rightly(draw, card, block),
        7..=8 => entry_rightly(draw, card, block),
        _ => two_bytes(draw, card, block),
    }
}

fn move_blocks(draw: &mut Draw, card: &mut Card, block: usize) {
    let blocks = card.blocks();
    match draw.below(4) {
        0 if blocks > 1 => card.swap(block, (block + draw.within(1, blocks - 1)) % blocks),
        0 | 1 => repeat(draw, card, block),
        2 => another_hand(draw, card, block),
        _ => cut(draw, card),
    }
}

fn one_bit(draw: &mut Draw, card: &mut Card, block: usize) {
    let place = BYTES * block + draw.below(BYTES);
    card.change(&[(place, card.image[place] ^ 1 << draw.below(8))]);
}

fn one_byte(draw: &mut Draw, card: &mut Card, block: usize) {
    let place = BYTES * block + draw.below(BYTES);
    card.change(&[(place, card.image[place].wrapping_add(draw.within(1, 255) as u8))]);
}

/// How many entries a block has.
fn used(card: &Card, block: usize) -> usize {
    card.image[BYTES * block + 10].into()
}

/// A byte that is 0 or 255, in the head or in an entry.
fn zero_for_255(draw: &mut Draw, card: &mut Card, block: usize) {
    let start = BYTES * block;
    let first = start + draw.pick(&[0, 16, 16]);
    let places: Vec<usize> = (first..start + 16 + 4 * used(card, block))
        .filter(|&place| [0, 255].contains(&card.image[place]))
        .collect();
    let place = draw.pick(&places);
    card.change(&[(place, !card.image[place])]);
}

/// One to three bytes anywhere in a block, with the check right.
fn some_bytes_rightly(draw: &mut Draw, card: &mut Card, block: usize) {
    let change = |draw: &mut Draw| (BYTES * block + draw.below(CHECK), draw.bits() as u8);
    let changes: Vec<Change> = (0..draw.within(1, 3)).map(|_| change(draw)).collect();
    card.change_rightly(&changes);
}

fn head_rightly(draw: &mut Draw, card: &mut Card, block: usize) {
    let place = BYTES * block + draw.below(16);
    let old = card.image[place];
    let near = [old.wrapping_add(1), old.wrapping_sub(1), old ^ 128, 0, 1, 120, 255];
    card.change_rightly(&[(place, draw.pick(&near))]);
}

/// A used entry becomes another, or what is none.
fn entry_rightly(draw: &mut Draw, card: &mut Card, block: usize) {
    let place = BYTES * block + 16 + 4 * draw.below(used(card, block));
    let is_number = card.image[place] == 0;
    let numbers = spell("0 1 255 65535");
    let letters = spell("n f x");
    let any = spell("t b p w n 0 7 k l T :00000001 :00010001 :00010074 :00000100");
    let four: Four = match draw.below(3) {
        0 if is_number => draw.pick(&numbers),
        0 => draw.pick(&letters),
        _ => draw.pick(&any),
    };
    let changes: Vec<Change> = (place..).zip(four).collect();
    card.change_rightly(&changes);
}

/// Two bytes, one up and one down: neighbours, 255 places apart, or anywhere.
fn two_bytes(draw: &mut Draw, card: &mut Card, block: usize) {
    let one = BYTES * block + draw.below(255);
    let far = draw.within(1, 256);
    let other = one + draw.pick(&[1, 4, 255, 255, far]);
    let (a, b) = (card.image[one], card.image[other]);
    card.change(&[(one, a.wrapping_add(1)), (other, b.wrapping_sub(1))]);
}

/// A block over another, or behind the last.
fn repeat(draw: &mut Draw, card: &mut Card, block: usize) {
    let blocks = card.blocks() + 1;
    let to = (block + draw.within(1, blocks - 1)) % blocks;
    card.repeat(block, to);
    card.tell_check(to);
}

/// A block of another hand in its place, or behind the last; or the hand's own under another key.
fn another_hand(draw: &mut Draw, card: &mut Card, block: usize) {
    let title = drawn::title(draw);
    let tape = if draw.once_in(2) { drawn::tape(&drawn::hand(draw)) } else { card.tape.clone() };
    let other = hand::write(title, &tape).expect("a hand");
    let blocks: Vec<&[u8]> = other.chunks_exact(BYTES).collect();
    let bytes: &Bytes = blocks[block.min(blocks.len() - 1)].try_into().expect("a block");
    let place = if draw.once_in(3) { card.blocks() } else { block };
    card.lay_bytes(place, bytes);
    card.tell_check(place);
}

fn cut(draw: &mut Draw, card: &mut Card) {
    let length = card.image.len();
    let any = draw.below(length);
    let others = [0, 1, length - 1, length + 1, length - BYTES, length + BYTES, length / 2, any];
    card.cut(draw.pick(&others));
}
