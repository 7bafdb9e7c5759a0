//! `record` killed at random moments, behind hands that stand.

use std::time::Duration;

use lists::draw::Draw;
use lists::journal::card::{self, Card};

use crate::due::{file_differs, text_differs};
use crate::journal::{Journal, Scratch};
use crate::run::{Ended, Run};
use crate::{Tried, expected, hands, progress};

const KILLS: usize = 200;
/// So many must come between the first new hand and the last, or the trial says too little.
const BETWEEN: usize = 50;
const SEED: u64 = 1;
/// After so many kills the length of a run is measured anew: the machine may have other work by then.
const MEASURED: usize = 20;
/// How many hands stand before.
const STOOD: u32 = 20;
/// How many hands are recorded: the next count is taken where the hands take too little of a run.
const COUNTS: [usize; 6] = [60, 120, 240, 480, 960, 1_600];
/// One in so many is long.
const LONG: usize = 8;
/// What is recorded on the card that a kill has left.
const MORE: &[u8] = b"k 3 2028 1\nt 0 10 5 0 100 100\nn\n";

/// Every eighth hand is as long as a script has bytes for: a write of several pages may be torn. The others are short.
fn script(count: usize) -> String {
    let lines = "x\n".repeat((60_000 - 28 * count) / (2 * count.div_ceil(LONG)));
    let more = |hand: usize| if hand % LONG == 0 { &lines[..] } else { "" };
    (1..=count).map(|hand| format!("k 3 2027 {hand}\nt 0 1 0 0 1 1\n{}", more(hand))).collect()
}

/// Hands of one to three blocks, by the second writer.
fn stood() -> Result<Vec<u8>, String> {
    let lines = |number: u32| hands::lines(hands::SMALLEST + number as usize * 53 % 300);
    let images = (1..=STOOD).map(|number| hands::theirs(number, &lines(number)));
    let images = images.collect::<Result<Vec<_>, _>>();
    Ok(images.map_err(|number| format!("a hand that is to stand before is {number}"))?.concat())
}

/// Where a kill came, by what stands on the card.
#[derive(Clone, Copy, PartialEq)]
enum Came {
    Before,
    Between,
    After,
    Torn,
}

struct Trial {
    journal: Journal,
    card: Scratch,
    script: Scratch,
    more: Scratch,
    /// The card before a run, after a whole one, and all lines that such a run tells.
    stood: Vec<u8>,
    all: Vec<u8>,
    lines: String,
}

impl Trial {
    fn new() -> Result<Self, String> {
        let [card, script, more] = ["killed", "script", "more"].map(Scratch::new);
        more.put(MORE)?;
        let (journal, stood) = (Journal::named()?, stood()?);
        let (all, lines) = (Vec::new(), String::new());
        Ok(Trial { journal, card, script, more, stood, all, lines })
    }

    /// The script of so many hands, and what is to come of it.
    fn set(&mut self, count: usize) -> Result<(), String> {
        let text = script(count);
        self.script.put(text.as_bytes())?;
        let recorded = expected::record(Some(&self.stood), text.as_bytes());
        self.all = recorded.file.ok_or("no file is to come of the script")?;
        self.lines = recorded.due.out;
        Ok(())
    }

    /// A run from the hands that stand before, killed after a time or not at all.
    fn run(&self, time: Option<Duration>) -> Result<Ended, String> {
        self.card.put(&self.stood)?;
        let run = Run::start(&self.journal, &self.card.path, &self.script.path)?;
        if let Some(time) = time {
            run.kill_after(time)?;
        }
        run.end()
    }

    /// A run that nobody kills.
    fn whole(&self) -> Result<Ended, String> {
        let ended = self.run(None)?;
        let differs = text_differs(&self.lines, &ended.told)
            .or_else(|| file_differs(Some(&self.all), self.card.bytes().ok().flatten().as_deref()));
        differs.map_or(Ok(ended), |what| Err(format!("record, not killed: {what}")))
    }

    fn left(&self) -> Result<Vec<u8>, String> {
        self.card.bytes()?.ok_or_else(|| "there is no card any more".into())
    }

    /// The quickest of three runs: what else the machine does makes a run longer, and nothing makes it shorter.
    fn quickest(&self) -> Result<Ended, String> {
        let runs = [self.whole()?, self.whole()?, self.whole()?];
        runs.into_iter().min_by_key(|run| run.whole).ok_or_else(|| "no run is measured".into())
    }

    /// So many hands that two thirds of a run come after the first, measured after a run that is not looked at.
    fn sized(&mut self) -> Result<usize, String> {
        for count in COUNTS {
            self.set(count)?;
            self.whole()?;
            let Ended { first, whole, .. } = self.quickest()?;
            if first < whole / 3 {
                return Ok(count);
            }
        }
        Ok(COUNTS[COUNTS.len() - 1])
    }

    /// What a kill left is the card before it and a front of the new hands, with all that were told.
    fn judged(&self, told: &str, left: &[u8], card: &Card) -> Result<Came, String> {
        if !self.lines.starts_with(told) || !(told.is_empty() || told.ends_with('\n')) {
            return Err(format!("it tells other lines; the last is {:?}", told.lines().last()));
        }
        if !left.starts_with(&self.stood) {
            return Err("the hands that stood before are changed".into());
        }
        if !self.all.starts_with(left) {
            return Err("behind the hands that stood before stand others than the script's".into());
        }
        let (told, new) = (told.lines().count(), card.hands.len() - STOOD as usize);
        if new < told {
            return Err(format!("{told} hands were told, and {new} stand"));
        }
        Ok(match (card.bad, new) {
            (Some(_), _) => Came::Torn,
            (None, 0) => Came::Before,
            (None, _) if left.len() < self.all.len() => Came::Between,
            _ => Came::After,
        })
    }

    /// The card that a kill left is listed, and recorded on.
    fn used_again(&self, left: &[u8], card: &Card) -> Result<(), String> {
        expected::list(card).check("list", &self.journal.list(&self.card.path)?)?;
        let recorded = expected::record(Some(left), MORE);
        let answer = self.journal.record(&self.card.path, &self.more.path)?;
        recorded.due.check("record again", &answer)?;
        file_differs(recorded.file.as_deref(), Some(&self.left()?))
            .map_or(Ok(()), |what| Err(format!("record again: {what}")))
    }

    fn kill(&self, time: Duration) -> Result<Came, String> {
        let ended = self.run(Some(time))?;
        let left = self.left()?;
        let card = card::read(&left);
        let came = self.judged(&ended.told, &left, &card)?;
        self.used_again(&left, &card)?;
        Ok(came)
    }

    fn remove(&self) -> Result<(), String> {
        [&self.card, &self.script, &self.more].into_iter().try_for_each(Scratch::remove)
    }
}

/// A time in a run, or up to a tenth behind it, so that some kills come after the last hand.
fn moment(draw: &mut Draw, whole: Duration) -> Duration {
    Duration::from_nanos(draw.bits() % (whole.as_nanos() as u64 * 11 / 10))
}

fn counted(came: &[Came], count: usize) -> Tried {
    let [before, between, after, torn] = [Came::Before, Came::Between, Came::After, Came::Torn]
        .map(|place| came.iter().filter(|&&one| one == place).count());
    let told = format!(
        "{KILLS} kills (seed {SEED}) in runs of {count} hands behind {STOOD}: {before} before the first, \
         {between} between, {after} after the last, {torn} torn"
    );
    if between < BETWEEN {
        return Err(format!("{told}: fewer than {BETWEEN} between, so too little is tried"));
    }
    Ok(told)
}

pub fn try_all() -> Tried {
    let mut trial = Trial::new()?;
    let count = trial.sized()?;
    let (mut draw, mut came, mut whole) = (Draw::new(SEED), Vec::new(), Duration::ZERO);
    for tried in 0..KILLS {
        progress::tell("kills", tried, KILLS);
        if tried % MEASURED == 0 {
            whole = trial.quickest()?.whole;
        }
        let time = moment(&mut draw, whole);
        let one = trial.kill(time);
        came.push(one.map_err(|why| format!("kill {tried}, after {time:?} of {whole:?}: {why}"))?);
    }
    trial.remove()?;
    counted(&came, count)
}
