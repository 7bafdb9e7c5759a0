//! Plays tables in good order to the end on the original Rust and measures the
//! runs against demand 3. What it prints is told in oracle/README.md.

mod action;
mod bound;
mod draw;
mod longest;
mod options;
mod order;
mod policy;
mod run;
mod show;
mod tables;
mod tally;
mod turns;

use std::process::ExitCode;

use rs_poker::arena::GameState;

use draw::Draw;
use options::Options;
use policy::{POLICIES, Policy};
use run::Violation;
use tally::Tally;

fn main() -> ExitCode {
    let options = match options::read(std::env::args().skip(1)) {
        Ok(options) => options,
        Err(message) => {
            eprintln!("run: {message}\n{}", options::USAGE);
            return ExitCode::from(2);
        }
    };
    println!("seed {}, {} tables", options.seed, options.tables);
    match play(&options) {
        Some(tally) => {
            tally.print();
            println!("0 violations");
            ExitCode::SUCCESS
        }
        None => ExitCode::FAILURE,
    }
}

/// Stops at the first violation, after telling it.
fn play(options: &Options) -> Option<Tally> {
    let mut draw = Draw::new(options.seed);
    let mut tally = Tally::default();
    for number in 1..=options.tables {
        let start = tables::any(&mut draw);
        let suiting = POLICIES.iter().enumerate().filter(|(_, policy)| (policy.suits)(&start));
        for (at, policy) in suiting {
            match run::play(&start, policy, &mut draw) {
                Ok(run) => tally.add(at, number, &start, &run),
                Err(violation) => {
                    tell(number, &start, policy, &violation);
                    return None;
                }
            }
        }
    }
    Some(tally)
}

fn tell(number: u64, start: &GameState, policy: &Policy, violation: &Violation) {
    let actions: Vec<String> = violation.actions.iter().map(|action| action.to_string()).collect();
    println!("VIOLATION: {}", violation.what);
    println!("table {number}: {}", show::table(start));
    println!("{} actions ({}): {}", actions.len(), policy.name, actions.join(", "));
}
