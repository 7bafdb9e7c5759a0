//! A hand as script lines, as entries and as blocks.

use crate::journal::block::{self, Block};
use crate::journal::entry::{self, Entry, Four};
use crate::journal::{EDITION, Title};
use crate::refusals::{BAD_JOURNAL, NOT_KEPT, Refusal};
use crate::scripts::reading::{self, Ask};

/// A line of a hand, of whatever count.
#[derive(Clone, PartialEq, Eq, Debug)]
pub struct Line {
    pub letter: u8,
    pub numbers: Vec<u16>,
}

impl Line {
    pub fn new(letter: u8, numbers: &[u16]) -> Self {
        Line { letter, numbers: numbers.to_vec() }
    }

    /// The line's entries: its letter, then its numbers.
    pub fn fours(&self) -> Vec<Four> {
        let numbers = self.numbers.iter().map(|&number| Entry::Number(number));
        let entries = [Entry::Letter(self.letter)].into_iter().chain(numbers);
        entries.map(Entry::bytes).collect()
    }

    /// Its entries, or 27 where no hand has such a line. Which count of ranks a hand's `w` has, its `t` says.
    pub fn laid(&self) -> Result<Vec<Four>, Refusal> {
        let is_one = entry::LETTERS.contains(&self.letter) && self.ask().is_some();
        if is_one { Ok(self.fours()) } else { Err(BAD_JOURNAL) }
    }

    /// What the line asks for when it is typed into a script, None where the script calls it 25.
    fn ask(&self) -> Option<Ask> {
        let numbers: String = self.numbers.iter().map(|number| format!(" {number}")).collect();
        reading::read(format!("{}{numbers}", char::from(self.letter)).as_bytes())
    }
}

/// What the reader finds in the bytes of a hand.
#[derive(PartialEq, Eq, Debug)]
pub struct Hand {
    pub title: Title,
    pub blocks: usize,
    pub entries: Vec<Entry>,
}

impl Hand {
    pub fn lines(&self) -> Vec<Line> {
        lines(&self.entries).expect("the entries of a hand begin with a letter")
    }

    /// The line whose letter is an entry, and the entry after it. None at the hand's end.
    pub fn line_at(&self, at: usize) -> Option<(Line, usize)> {
        let lines = lines(&self.entries[at..]).expect("a line begins here");
        let line = lines.into_iter().next()?;
        let next = at + 1 + line.numbers.len();
        Some((line, next))
    }
}

/// Each letter begins a line, and the numbers up to the next are its own. None where a number comes first.
fn lines(entries: &[Entry]) -> Option<Vec<Line>> {
    let mut lines: Vec<Line> = Vec::new();
    for &entry in entries {
        match entry {
            Entry::Letter(letter) => lines.push(Line::new(letter, &[])),
            Entry::Number(number) => lines.last_mut()?.numbers.push(number),
        }
    }
    Some(lines)
}

/// "`t` stands first and nowhere else in a hand", and each line is one of the script's at a table of so many stacks.
fn are_a_hand(lines: &[Line]) -> bool {
    let Some((first, others)) = lines.split_first() else {
        return false;
    };
    let Some(Ask::Table { stacks, .. }) = first.ask() else {
        return false;
    };
    others.iter().all(|line| match line.ask() {
        Some(Ask::Settle(ranks)) => ranks.len() == stacks.len(),
        Some(Ask::Table { .. } | Ask::Key(_)) | None => false,
        Some(_) => true,
    })
}

fn spell_a_hand(entries: &[Entry]) -> bool {
    lines(entries).is_some_and(|lines| are_a_hand(&lines))
}

/// The image of a hand: 27 for what is no hand, then 28 for no key or above 255 blocks.
pub fn write(title: Title, tape: &[Four]) -> Result<Vec<u8>, Refusal> {
    let entries = entry::all(tape).filter(|entries| spell_a_hand(entries)).ok_or(BAD_JOURNAL)?;
    if title.edition != EDITION {
        return Err(BAD_JOURNAL);
    }
    let parts: Vec<&[Entry]> = entries.chunks(block::ENTRIES).collect();
    if title.key.year == 0 || parts.len() > block::MOST {
        return Err(NOT_KEPT);
    }
    let made =
        |(at, part): (usize, &&[Entry])| block::made(title, at as u8, at + 1 == parts.len(), part);
    Ok(parts.iter().enumerate().flat_map(made).collect())
}

/// Exactly the bytes of one hand, or 27.
pub fn read(bytes: &[u8]) -> Result<Hand, Refusal> {
    let blocks = bytes.chunks(block::BYTES).map(block::read).collect::<Result<Vec<_>, _>>()?;
    let title = blocks.first().ok_or(BAD_JOURNAL)?.title;
    if !follow_each_other(&blocks) {
        return Err(BAD_JOURNAL);
    }
    let count = blocks.len();
    let entries: Vec<Entry> = blocks.into_iter().flat_map(|block| block.entries).collect();
    if !spell_a_hand(&entries) {
        return Err(BAD_JOURNAL);
    }
    Ok(Hand { title, blocks: count, entries })
}

/// "In order, of one key and closed."
fn follow_each_other(blocks: &[Block]) -> bool {
    blocks.iter().enumerate().all(|(at, block)| {
        let is_numbered = usize::from(block.index) == at;
        let is_of_the_hand = block.title == blocks[0].title;
        let is_final = at + 1 == blocks.len();
        is_numbered && is_of_the_hand && block.is_last == is_final
    })
}
