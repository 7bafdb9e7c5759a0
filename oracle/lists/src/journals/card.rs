//! A case of the list. A hand is spelled, written, damaged and read, and each line tells what is done or asked, with
//! the answer of the second writer and reader.

use std::fmt::{Display, Write};
use std::io;

use crate::journal::block::{self, BYTES, Bytes};
use crate::journal::entry::Four;
use crate::journal::hand;
use crate::journal::{EDITION, Title};
use crate::journals::tokens::token;
use crate::key::Key;
use crate::line::Line;
use crate::list::List;
use crate::refusals::Refusal;

/// What a reader of the list needs room for: 256 blocks, and their entries.
const MOST_ENTRIES: usize = 256 * block::ENTRIES;
const MOST_BYTES: usize = 256 * BYTES;
/// The numbers of a line that is appended as one.
const MOST_NUMBERS: usize = 64;

/// How many entries or changes stand in one line.
const TOKENS: usize = 100;

/// How many of a line's numbers are told, as the console takes them.
const NUMBERS: usize = 20;

/// A place of the image, and what it gets.
pub type Change = (usize, u8);

pub struct Card {
    lines: Vec<Line>,
    pub title: Title,
    pub tape: Vec<Four>,
    written: Vec<u8>,
    pub image: Vec<u8>,
}

impl Card {
    pub fn new(what: impl Display) -> Self {
        let title = Title::new(Key::NONE, EDITION);
        let lines = vec![Line::new('#').token(what)];
        Card { lines, title, tape: Vec::new(), written: Vec::new(), image: Vec::new() }
    }

    pub fn put(self, list: &mut List) -> io::Result<()> {
        list.put_all(self.lines)
    }

    pub fn lines(&self) -> impl Iterator<Item = &Line> {
        self.lines.iter()
    }

    fn tell(&mut self, line: Line) {
        self.lines.push(line);
    }

    /// A new hand: no entries, no image.
    pub fn begin(&mut self, title: Title) {
        self.tell(Line::new('K').token(title.key).token(title.edition));
        self.title = title;
        self.tape.clear();
        self.written.clear();
        self.image.clear();
    }

    pub fn append(&mut self, entries: &[Four]) {
        entries.chunks(TOKENS).for_each(|part| self.append_often(1, part));
    }

    /// The same entries so many times.
    pub fn append_often(&mut self, times: usize, entries: &[Four]) {
        let line = Line::new('E').token(times);
        self.tell(entries.iter().fold(line, |line, &four| line.token(token(four))));
        self.tape.extend(entries.repeat(times));
        assert!(self.tape.len() <= MOST_ENTRIES, "more entries than a reader has room for");
    }

    /// One line more, laid behind the entries.
    pub fn append_line(&mut self, line: &hand::Line) -> Result<(), Refusal> {
        assert!(line.numbers.len() <= MOST_NUMBERS, "more numbers than a reader has room for");
        let asked = Line::new('p').token(char::from(line.letter));
        let asked = line.numbers.iter().fold(asked, |asked, number| asked.token(number));
        let laid = line.laid();
        self.tape.extend(laid.iter().flatten());
        let used = self.tape.len();
        self.tell(told(asked, laid.as_ref().map(|_| used).map_err(|&number| number), Line::token));
        laid.map(drop)
    }

    /// Asks the writer. The image is what it gives, nothing where it refuses.
    pub fn write(&mut self) -> Result<usize, Refusal> {
        let written = hand::write(self.title, &self.tape);
        self.written = written.clone().unwrap_or_default();
        self.image = self.written.clone();
        let blocks = written.map(|bytes| bytes.len() / BYTES);
        self.tell(told(Line::new('W'), blocks, Line::token));
        blocks
    }

    /// Lays one block from the entries from a place on, over that block of the image.
    pub fn lay(&mut self, index: u8, from: usize) -> Result<bool, Refusal> {
        let rest = self.tape.get(from..).unwrap_or_default();
        let laid = block::lay(self.title, index, rest);
        if let Ok((bytes, _)) = &laid {
            self.lay_over(usize::from(index), bytes);
        }
        let more = laid.map(|(_, more)| more);
        self.tell(told(Line::new('y').token(index).token(from), more, Line::flag));
        more
    }

    fn lay_over(&mut self, index: usize, bytes: &Bytes) {
        let place = BYTES * index;
        self.resize(self.image.len().max(place + BYTES));
        self.image[place..place + BYTES].copy_from_slice(bytes);
    }

    fn resize(&mut self, length: usize) {
        assert!(length <= MOST_BYTES, "more bytes than a reader has room for");
        self.image.resize(length, 0);
    }

    /// All bytes of a block, as they stand.
    pub fn tell_block(&mut self, index: usize) {
        let mut digits = String::new();
        for byte in self.block(index) {
            write!(digits, "{byte:02x}").expect("a string takes any text");
        }
        self.tell(Line::new('B').token(index).answer().token(digits));
    }

    pub fn block(&self, index: usize) -> Bytes {
        self.image[BYTES * index..BYTES * (index + 1)].try_into().expect("a block")
    }

    pub fn blocks(&self) -> usize {
        self.image.len() / BYTES
    }

    /// The check of a block's bytes as they stand, and what stands behind them.
    pub fn tell_check(&mut self, index: usize) {
        let bytes = self.block(index);
        let both = [block::check(&bytes), [bytes[block::CHECK], bytes[block::CHECK + 1]]];
        self.tell(both.iter().flatten().fold(Line::new('c').token(index).answer(), Line::token));
    }

    /// Changes bytes of the image; what stands there already is left out.
    pub fn change(&mut self, changes: &[Change]) {
        let mut told = Vec::new();
        for &(place, value) in changes {
            if self.image[place] != value {
                self.image[place] = value;
                told.push(format!("{place}:{value:02x}"));
            }
        }
        for part in told.chunks(TOKENS) {
            self.tell(part.iter().fold(Line::new('C'), Line::token));
        }
    }

    /// Changes bytes, and puts the check right of each block that is changed.
    pub fn change_rightly(&mut self, changes: &[Change]) {
        let mut bytes = self.image.clone();
        let mut all = changes.to_vec();
        changes.iter().for_each(|&(place, value)| bytes[place] = value);
        for &(place, _) in changes {
            let start = place / BYTES * BYTES;
            let check = block::check(&bytes[start..start + BYTES]);
            all.extend((start + block::CHECK..).zip(check));
        }
        self.change(&all);
    }

    /// Cuts the image, or lengthens it with zeros.
    pub fn cut(&mut self, length: usize) {
        self.resize(length);
        self.tell(Line::new('L').token(length));
    }

    pub fn swap(&mut self, one: usize, other: usize) {
        let (first, second) = (self.block(one), self.block(other));
        self.lay_over(one, &second);
        self.lay_over(other, &first);
        self.tell(Line::new('S').token(one).token(other));
    }

    /// A block stands over another, or behind the last.
    pub fn repeat(&mut self, from: usize, to: usize) {
        let bytes = self.block(from);
        self.lay_over(to, &bytes);
        self.tell(Line::new('M').token(from).token(to));
    }

    /// A block from elsewhere stands over one, or behind the last.
    pub fn lay_bytes(&mut self, index: usize, bytes: &Bytes) {
        let digits: String = bytes.iter().map(|byte| format!("{byte:02x}")).collect();
        self.lay_over(index, bytes);
        self.tell(Line::new('P').token(index).token(digits));
    }

    /// The image is again what the writer gave.
    pub fn restore(&mut self) {
        self.image = self.written.clone();
        self.tell(Line::new('O'));
    }

    /// Asks the reader of hands about the whole image; the entries that it finds.
    pub fn read(&mut self) -> Result<usize, Refusal> {
        let hand = hand::read(&self.image);
        let entries = hand.as_ref().map(|hand| hand.entries.len()).map_err(|&number| number);
        self.tell(told(Line::new('R').token(self.image.len()), hand, |line, hand| {
            let line = line.token(hand.title.key).token(hand.title.edition);
            line.token(hand.blocks).token(hand.entries.len())
        }));
        entries
    }

    /// Asks the reader of blocks about so many bytes from a place on, as many as there are.
    pub fn read_bytes(&mut self, from: usize, length: usize) -> Result<(), Refusal> {
        let end = self.image.len().min(from + length);
        let read = block::read(&self.image[from.min(end)..end]);
        let answer = read.as_ref().map(drop).map_err(|&number| number);
        self.tell(told(Line::new('r').token(from).token(length), read, |line, block| {
            let line = line.token(block.title.key).token(block.title.edition).token(block.index);
            line.flag(block.is_last).token(block.entries.len())
        }));
        answer
    }

    /// Asks about a block, and tells first how it stands if it is whole.
    pub fn read_block(&mut self, index: usize) -> Result<(), Refusal> {
        if index < self.blocks() {
            self.tell_check(index);
        }
        self.read_bytes(BYTES * index, BYTES)
    }

    /// The line whose letter is an entry of the image, which is a hand; the entry after it.
    pub fn tell_line(&mut self, at: usize) -> usize {
        let found = hand::read(&self.image).expect("a hand").line_at(at);
        let (line, next) = found.unwrap_or((hand::Line::new(0, &[]), at));
        let letter = if next == at { '-' } else { char::from(line.letter) };
        let told = Line::new('l').token(at).answer().token(letter);
        let told = told.token(line.numbers.len()).token(next);
        self.tell(line.numbers.iter().take(NUMBERS).fold(told, Line::token));
        next
    }

    /// An entry of the image, used or not.
    pub fn tell_entry(&mut self, at: usize) {
        let block = self.block(at / block::ENTRIES);
        let four = block::four_at(&block, at % block::ENTRIES);
        self.tell(Line::new('e').token(at).answer().token(token(four)));
    }
}

/// A line with its answer, or the number of its refusal.
fn told<T>(line: Line, answer: Result<T, Refusal>, put: impl Fn(Line, T) -> Line) -> Line {
    match answer {
        Ok(answer) => put(line.answer(), answer),
        Err(number) => line.refused(number),
    }
}
