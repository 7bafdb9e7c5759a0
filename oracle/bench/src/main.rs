//! How long a step takes: the Rust's and ours, in one run.

mod bets;
mod builds;
mod counts;
mod figures;
mod journal;
mod report;
mod scripts;
mod settlement;
mod walks;

use std::process::{Command, ExitCode};

use figures::{Figure, Named};
use peatcloak::library;

/// Rounds through all that is measured; they take turns, so that a slow moment meets each.
const ROUNDS: usize = 601;

/// What the Rust does, which is also measured as a plain release.
const THE_RUST: [Named; 4] = [
    ("rust-bet", bets::rust_in_place),
    ("rust-bet-clone", bets::rust_clone),
    ("rust-build", builds::rust),
    ("rust-script", scripts::rust),
];

const OURS: [Named; 5] = [
    ("bet", bets::across),
    ("bet-by-value", bets::by_value),
    ("build", builds::ours),
    ("script", scripts::ours),
    ("settlement", settlement::ours),
];

/// `bench PLAIN`, where PLAIN is this program built plain; `bench --rust` gives the Rust's figures alone, and
/// `bench --count WHAT TIMES` does one thing and measures nothing.
fn main() -> ExitCode {
    library::check();
    let mut words = std::env::args().skip(1);
    match words.next().as_deref() {
        Some("--rust") => {
            figures::take(&the_rust(), ROUNDS)
                .iter()
                .for_each(|figure| println!("{}", figure.written()));
            ExitCode::SUCCESS
        }
        Some("--count") => counts::run(&[the_rust(), ours()].concat(), words),
        Some(plain) => all(plain),
        None => {
            eprintln!("bench: the program built plain is not named");
            ExitCode::from(2)
        }
    }
}

fn the_rust() -> Vec<Named> {
    [&THE_RUST[..], &walks::THE_RUST].concat()
}

fn ours() -> Vec<Named> {
    [&OURS[..], &walks::OURS].concat()
}

fn all(plain: &str) -> ExitCode {
    let mut rust = figures::take(&[the_rust(), ours()].concat(), ROUNDS);
    let ours = rust.split_off(the_rust().len());
    let Ok(ran) = Command::new(plain).arg("--rust").output() else {
        eprintln!("bench: {plain} cannot be run");
        return ExitCode::FAILURE;
    };
    let plain: Option<Vec<Figure>> =
        String::from_utf8_lossy(&ran.stdout).lines().map(Figure::read).collect();
    match plain.filter(|plain| plain.len() == rust.len()) {
        Some(plain) => {
            let (rust, rust_walks) = rust.split_at(THE_RUST.len());
            let (plain, plain_walks) = plain.split_at(THE_RUST.len());
            let (ours, our_walks) = ours.split_at(OURS.len());
            report::tell(rust, plain, ours);
            report::tell_walks(rust_walks, plain_walks, our_walks);
            journal::tell();
            ExitCode::SUCCESS
        }
        None => {
            eprintln!("bench: the program built plain told no figures");
            ExitCode::FAILURE
        }
    }
}
