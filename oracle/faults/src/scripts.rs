//! Scripts recorded by the program, beside the second player, its hands of a script and the second writer.

use lists::draw::Draw;
use lists::journal::card::{self, Card};
use lists::key::Key;
use lists::scripts::drawn;
use lists::scripts::written::Case;

use crate::due::file_differs;
use crate::journal::{Journal, Scratch};
use crate::{Tried, edges, expected, hands, progress};

const DRAWN: u64 = 300;
/// One in three has no keys: all its hands are 28.
const WITHOUT: u64 = 3;
const SEED: u64 = 1;
/// How many keys of a card are read.
const READ: usize = 3;
const NOT_THERE: Key = Key::new(1, 1, 1);

/// Those of hand-picked edges, each on a new card and behind a hand, then those drawn, by turns.
fn cases() -> Vec<(Case, bool)> {
    let mut draw = Draw::new(SEED);
    let on_new = edges::all().into_iter().map(|case| (case, false));
    let behind = edges::all().into_iter().map(|case| (case, true));
    let drawn = (1..=DRAWN).map(|number| match number % WITHOUT {
        0 => (drawn::case(&mut draw, number), number % 2 == 0),
        _ => (drawn::keyed(&mut draw, number), number % 2 == 0),
    });
    on_new.chain(behind).chain(drawn).collect()
}

/// A hand of two blocks, whose number fits no `k` line.
fn standing() -> Result<Vec<u8>, String> {
    hands::theirs(65_536, &hands::lines(200)).map_err(|n| format!("the standing hand is {n}"))
}

/// Up to three keys, from the last hand on; one that is not there where the card has fewer.
fn keys(card: &Card) -> Vec<Key> {
    let mut keys: Vec<Key> = Vec::new();
    for key in card.hands.iter().rev().map(card::Placed::key).chain([NOT_THERE]) {
        if keys.len() < READ && !keys.contains(&key) {
            keys.push(key);
        }
    }
    keys
}

/// What was counted: lines told, those of them that are 28, and reads.
#[derive(Default)]
struct Counts {
    told: usize,
    not_kept: usize,
    read: usize,
}

struct Trial {
    journal: Journal,
    card: Scratch,
    script: Scratch,
    counts: Counts,
}

impl Trial {
    /// Recorded: the lines, the status and the file, byte for byte.
    fn record(&mut self, script: &[u8], stood: Option<&[u8]>) -> Result<Option<Vec<u8>>, String> {
        self.script.put(script)?;
        self.card.remove()?;
        stood.map_or(Ok(()), |bytes| self.card.put(bytes))?;
        let recorded = expected::record(stood, script);
        let answer = self.journal.record(&self.card.path, &self.script.path)?;
        recorded.due.check("record", &answer)?;
        let file = self.card.bytes()?;
        if let Some(what) = file_differs(recorded.file.as_deref(), file.as_deref()) {
            return Err(format!("record: {what}"));
        }
        self.counts.told += recorded.due.out.lines().count();
        self.counts.not_kept += recorded.due.out.lines().filter(|l| l.ends_with(" 0 28")).count();
        Ok(file)
    }

    /// Listed, and some keys read.
    fn ask(&mut self, bytes: &[u8]) -> Result<(), String> {
        let card = card::read(bytes);
        expected::list(&card).check("list", &self.journal.list(&self.card.path)?)?;
        for key in keys(&card) {
            let answer = self.journal.read(&self.card.path, key)?;
            expected::read(&card, key).check(&format!("read of {key}"), &answer)?;
            self.counts.read += 1;
        }
        Ok(())
    }

    fn try_one(&mut self, case: &Case, is_behind: bool) -> Result<(), String> {
        let stood = if is_behind { Some(standing()?) } else { None };
        let tried = match self.record(&case.script, stood.as_deref()) {
            Ok(Some(bytes)) => self.ask(&bytes),
            other => other.map(drop),
        };
        let place = if is_behind { "behind a hand" } else { "on a new card" };
        let script = self.script.path.display();
        tried.map_err(|why| {
            format!("`{}` {place}, seed {SEED}: {why}; the script is left in {script}", case.what)
        })
    }
}

pub fn try_all() -> Tried {
    let (card, script) = (Scratch::new("recorded"), Scratch::new("script"));
    let mut trial = Trial { journal: Journal::named()?, card, script, counts: Counts::default() };
    let cases = cases();
    for (tried, (case, is_behind)) in cases.iter().enumerate() {
        progress::tell("scripts", tried, cases.len());
        trial.try_one(case, *is_behind)?;
    }
    trial.card.remove()?;
    trial.script.remove()?;
    let Counts { told, not_kept, read } = trial.counts;
    Ok(format!(
        "{} scripts, {DRAWN} of them drawn (seed {SEED}): {told} hands told, {not_kept} of them 28; each card listed, {read} keys read",
        cases.len()
    ))
}
