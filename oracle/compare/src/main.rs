//! Both sides on the same inputs, float for float: rs_poker as the oracle builds it, and the proved library.

mod boundary;
mod builds;
mod difference;
mod differing;
mod floats;
mod keys;
mod options;
mod pair;
mod rounds;
mod runs;
mod same;
mod scripts;
mod seats;
mod settle;
mod shrink;
mod steps;
mod sweep;
mod tally;
mod theirs;
mod work;

use std::process::ExitCode;

use options::Run;
use peatcloak::library;

fn main() -> ExitCode {
    library::check();
    let options = match options::read(std::env::args().skip(1)) {
        Ok(options) => options,
        Err(message) => {
            eprintln!("compare: {message}\n{}", options::USAGE);
            return ExitCode::from(2);
        }
    };
    let is_same = match options.run {
        Run::Compare { seconds, seed } => work::run(seconds, seed, options.threads),
        Run::Sweep { table, is_forced } => match sweep::run(table, is_forced, options.threads) {
            Ok(is_same) => is_same,
            Err(message) => {
                eprintln!("compare: {message}");
                return ExitCode::from(2);
            }
        },
        Run::List => {
            sweep::list();
            true
        }
    };
    if is_same { ExitCode::SUCCESS } else { ExitCode::FAILURE }
}
