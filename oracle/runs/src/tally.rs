//! What was seen, and the table that is printed of it.

use std::fmt;

use rs_poker::arena::GameState;

use crate::policy::{POLICIES, Policy};
use crate::run::Run;
use crate::show;

/// A run that stands out, with all that is told of it.
struct Mark {
    length: usize,
    bound: usize,
    policy: &'static str,
    number: u64,
    table: String,
}

impl fmt::Display for Mark {
    fn fmt(&self, to: &mut fmt::Formatter<'_>) -> fmt::Result {
        let Mark { length, bound, policy, number, table } = self;
        write!(to, "{length} actions, bound {bound} ({policy}, table {number})\n  {table}")
    }
}

#[derive(Default)]
struct Line {
    runs: u64,
    actions: u64,
    longest: Option<Run>,
    least_slack: Option<usize>,
    no_slack: u64,
}

impl Line {
    fn add(&mut self, run: &Run) {
        let slack = run.bound - run.length;
        self.runs += 1;
        self.actions += run.length as u64;
        self.no_slack += (slack == 0) as u64;
        self.least_slack = Some(self.least_slack.map_or(slack, |least| least.min(slack)));
        if self.longest.as_ref().is_none_or(|longest| run.length > longest.length) {
            self.longest = Some(Run { length: run.length, bound: run.bound });
        }
    }

    fn print(&self, name: &str) {
        let Line { runs, actions, no_slack, .. } = self;
        let (length, bound) = self.longest.as_ref().map_or((0, 0), |run| (run.length, run.bound));
        let slack = self.least_slack.unwrap_or(0);
        println!("{name:16} {runs:8} {actions:9} {length:8} {bound:6} {slack:12} {no_slack:8}");
    }
}

#[derive(Default)]
pub struct Tally {
    lines: [Line; POLICIES.len()],
    all: Line,
    longest: Option<Mark>,
    tightest: Option<Mark>,
}

impl Tally {
    pub fn add(&mut self, at: usize, number: u64, start: &GameState, run: &Run) {
        self.lines[at].add(run);
        self.all.add(run);
        let mark = || mark(&POLICIES[at], number, start, run);
        if self.longest.as_ref().is_none_or(|longest| run.length > longest.length) {
            self.longest = Some(mark());
        }
        let slack = run.bound - run.length;
        if self.tightest.as_ref().is_none_or(|least| slack < least.bound - least.length) {
            self.tightest = Some(mark());
        }
    }

    pub fn print(&self) {
        println!("policy               runs   actions  longest  bound  least slack  slack 0");
        for (line, policy) in self.lines.iter().zip(&POLICIES) {
            line.print(policy.name);
        }
        self.all.print("all");
        for (name, mark) in [("longest", &self.longest), ("least slack", &self.tightest)] {
            if let Some(mark) = mark {
                println!("{name}: {mark}");
            }
        }
    }
}

fn mark(policy: &Policy, number: u64, start: &GameState, run: &Run) -> Mark {
    let Run { length, bound } = *run;
    Mark { length, bound, policy: policy.name, number, table: show::table(start) }
}
