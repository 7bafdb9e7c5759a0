//! The program behind ./journal on a card that is cut.

use std::collections::BTreeSet;

use lists::draw::Draw;
use lists::journal::block::BYTES;
use lists::journal::card::{self, Card};

use crate::due::file_differs;
use crate::journal::{Journal, Scratch};
use crate::{Tried, cuts, expected, hands, progress};

const CUTS: usize = 500;
/// Beside every ninth border of blocks, one byte before and one after it.
const BESIDE: usize = 9;
/// At every fifth cut a hand is recorded behind it.
const RECORDED: usize = 5;
const SEED: u64 = 1;
/// A hand of one block, of a key that the card has not.
const SCRIPT: &[u8] = b"k 3 2027 1\nt 0 10 5 0 100 100\nn\n";

/// Every border of blocks, which are those inside hands and the ends of hands; bytes beside some; others by chance.
fn places(length: usize) -> Vec<usize> {
    let mut places: BTreeSet<usize> = (0..=length).step_by(BYTES).collect();
    let borders = (BYTES..length).step_by(BYTES * BESIDE);
    places.extend(borders.flat_map(|border| [border - 1, border + 1]));
    let mut draw = Draw::new(SEED);
    while places.len() < CUTS {
        places.insert(draw.below(length));
    }
    places.into_iter().collect()
}

struct Trial {
    journal: Journal,
    card: Scratch,
    script: Scratch,
    /// A card of whole hands, and where each of them ends.
    bytes: Vec<u8>,
    ends: Vec<usize>,
}

impl Trial {
    fn new() -> Result<Self, String> {
        let [card, script] = ["cut", "script"].map(Scratch::new);
        script.put(SCRIPT)?;
        let (bytes, ends) = cuts::card()?;
        Ok(Trial { journal: Journal::named()?, card, script, bytes, ends })
    }

    fn is_end(&self, length: usize) -> bool {
        length == 0 || self.ends.contains(&length)
    }

    /// The card so far, by the second reader; its hands are those that were laid.
    fn cut_to(&self, length: usize) -> Result<Card, String> {
        let card = card::read(&self.bytes[..length]);
        let whole = self.ends.iter().filter(|&&end| end <= length).count();
        let is_right = card.hands.len() == whole && card.bad.is_none() == self.is_end(length);
        if is_right { Ok(card) } else { Err("the second reader reads others".into()) }
    }

    /// Listed; the last whole hand read, and the one that is torn or not there.
    fn ask(&self, card: &Card) -> Result<(), String> {
        expected::list(card).check("list", &self.journal.list(&self.card.path)?)?;
        let whole = card.hands.len() as u32;
        if whole > 0 {
            self.read(card, whole)?;
        }
        self.read(card, whole + 1)
    }

    fn read(&self, card: &Card, number: u32) -> Result<(), String> {
        let key = hands::key(number);
        let answer = self.journal.read(&self.card.path, key)?;
        expected::read(card, key).check(&format!("read of {key}"), &answer)
    }

    /// A hand is appended to a whole card; a torn one stays as it is.
    fn record(&self, bytes: &[u8]) -> Result<(), String> {
        let recorded = expected::record(Some(bytes), SCRIPT);
        let answer = self.journal.record(&self.card.path, &self.script.path)?;
        recorded.due.check("record", &answer)?;
        let left = self.card.bytes()?;
        file_differs(recorded.file.as_deref(), left.as_deref())
            .map_or(Ok(()), |what| Err(format!("record: {what}")))
    }

    fn try_cut(&self, length: usize, is_recorded: bool) -> Result<(), String> {
        let bytes = &self.bytes[..length];
        self.card.put(bytes)?;
        self.ask(&self.cut_to(length)?)?;
        if is_recorded { self.record(bytes) } else { Ok(()) }
    }
}

pub fn try_all() -> Tried {
    let trial = Trial::new()?;
    let (mut at_end, mut appended) = (0, 0);
    for (tried, length) in places(trial.bytes.len()).into_iter().enumerate() {
        progress::tell("program", tried, CUTS);
        let is_recorded = tried % RECORDED == 0;
        let cut = trial.try_cut(length, is_recorded);
        cut.map_err(|why| format!("the card cut to {length} bytes: {why}"))?;
        at_end += usize::from(trial.is_end(length));
        appended += usize::from(trial.is_end(length) && is_recorded);
    }
    trial.card.remove()?;
    trial.script.remove()?;
    let refused = CUTS.div_ceil(RECORDED) - appended;
    Ok(format!(
        "{CUTS} cuts (seed {SEED}), {at_end} at a hand's end, each listed, and read before and behind it; \
         a hand recorded at {appended} ends, and refused at {refused} tears"
    ))
}
