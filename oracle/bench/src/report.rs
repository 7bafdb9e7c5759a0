//! The table that is printed.

use crate::figures::Figure;
use crate::{scripts, walks};

/// What is to be reached (docs/COMPARISON.md), each as a ratio to the Rust as the oracle is built.
const ACROSS: f64 = 1.2;
const BY_VALUE: f64 = 2.5;
const OF_CLONE: f64 = 0.5;

/// Figures in the order in which they are measured.
pub fn tell(rust: &[Figure], plain: &[Figure], ours: &[Figure]) {
    let [in_place, clone, build, script] = rust else { unreachable!("four are measured") };
    let [across, by_value, our_build, our_script, settlement] = ours else {
        unreachable!("five are measured")
    };
    println!("{:<44}{:>10}{:>10}", "nanoseconds", "least", "median");
    row("a bet: the Rust, in place", in_place);
    row("  the same as a plain release", &plain[0]);
    row("a bet: the Rust, clone and step", clone);
    row("  the same as a plain release", &plain[1]);
    row("a bet: ours across the boundary, in place", across);
    row("a bet: ours in a loop inside, by value", by_value);
    row("a build: the Rust", build);
    row("  the same as a plain release", &plain[2]);
    row("a build: ours", our_build);
    row("a settlement: ours (the Rust has none)", settlement);
    let lines = scripts::lines();
    println!("a script of 65,536 bytes, {lines} lines, for each line");
    row("  the oracle's player, on the Rust's tables", &each(script, lines));
    row("  the same as a plain release", &each(&plain[3], lines));
    row("  ours", &each(our_script, lines));
    println!("\n{:<44}{:>10}{:>10}", "ratios", "of least", "of median");
    ratio("across the boundary to the Rust in place", across, in_place, Some(ACROSS));
    ratio("by value to the Rust in place", by_value, in_place, Some(BY_VALUE));
    ratio("by value to the Rust's clone and step", by_value, clone, Some(OF_CLONE));
    ratio("across the boundary to the plain Rust", across, &plain[0], None);
    ratio("by value to the plain Rust", by_value, &plain[0], None);
    ratio("by value to the plain clone and step", by_value, &plain[1], None);
    ratio("a build to the Rust's", our_build, build, None);
    ratio("a script to the oracle's player", our_script, script, None);
}

/// Figures in the order in which they are measured: the copy, which is a part of each other one and is taken off there.
pub fn tell_walks(rust: &[Figure], plain: &[Figure], ours: &[Figure]) {
    println!("\nwalks on 16 seats, nanoseconds without the copy that puts a table back");
    walk_rows("least", [rust, plain, ours], |figure| figure.least);
    walk_rows("median", [rust, plain, ours], |figure| figure.median);
}

fn walk_rows(word: &str, sides: [&[Figure]; 3], of: fn(&Figure) -> f64) {
    println!("{word:<34}  the Rust     plain      ours  to Rust to plain");
    let row = |name: &str, [rust, plain, ours]: [f64; 3]| {
        let (ratio, to_plain) = (ours / rust, ours / plain);
        println!("{name:<34}{rust:>10.1}{plain:>10.1}{ours:>10.1}{ratio:>9.2}{to_plain:>9.2}");
    };
    for (at, name) in walks::TOLD.iter().enumerate() {
        row(name, sides.map(|figures| of(&figures[at + 1]) - of(&figures[0])));
    }
    row("the copy", sides.map(|figures| of(&figures[0])));
}

fn each(script: &Figure, lines: usize) -> Figure {
    let of_line = |time: f64| time / lines as f64;
    Figure { least: of_line(script.least), median: of_line(script.median) }
}

fn row(name: &str, figure: &Figure) {
    println!("{name:<44}{:>10.1}{:>10.1}", figure.least, figure.median);
}

fn ratio(name: &str, ours: &Figure, theirs: &Figure, most: Option<f64>) {
    let (least, median) = (ours.least / theirs.least, ours.median / theirs.median);
    let goal = most.map_or(String::new(), |most| {
        let reached = if least <= most && median <= most { "reached" } else { "NOT reached" };
        format!("   at most {most}: {reached}")
    });
    println!("{name:<44}{least:>10.2}{median:>10.2}{goal}");
}
