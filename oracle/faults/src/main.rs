//! Faults of a card, tried through the proved library and held against the oracle's second journal.

mod bits;
mod cuts;
mod due;
mod edges;
mod expected;
mod hands;
mod journal;
mod kills;
mod lengths;
mod program;
mod progress;
mod run;
mod scripts;

use std::process::ExitCode;

use peatcloak::library;

/// What a trial came to: what was counted, or the first answer that was not the expected one.
type Tried = Result<String, String>;

const TRIALS: [(&str, fn() -> Tried); 6] = [
    ("cuts", cuts::try_all),
    ("bits", bits::try_all),
    ("lengths", lengths::try_all),
    ("program", program::try_all),
    ("kills", kills::try_all),
    ("scripts", scripts::try_all),
];

/// `faults [TRIAL]`: one trial, or all of them. JOURNAL names the program behind the last three.
fn main() -> ExitCode {
    library::check();
    let word = std::env::args().nth(1);
    let asked: Vec<_> =
        TRIALS.into_iter().filter(|(name, _)| word.as_deref().is_none_or(|w| w == *name)).collect();
    if asked.is_empty() {
        eprintln!("faults: cuts, bits, lengths, program, kills, scripts, or nothing for all");
        return ExitCode::from(2);
    }
    let told = asked.into_iter().map(|(name, trial)| tell(name, trial()));
    if told.fold(true, |good, one| good & one) { ExitCode::SUCCESS } else { ExitCode::FAILURE }
}

fn tell(name: &str, tried: Tried) -> bool {
    match &tried {
        Ok(counted) => println!("{name}: {counted}; none different"),
        Err(why) => println!("{name}: DIFFERENT: {why}"),
    }
    tried.is_ok()
}
