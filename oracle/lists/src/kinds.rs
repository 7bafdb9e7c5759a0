//! The kinds of list.

use std::io;

use crate::draw::Draw;
use crate::list::List;
use crate::{builds, floats, journals, rounds, scripts, seats, settlements, steps};

pub struct Kind {
    pub name: &'static str,
    /// How much is drawn where no count is given: sets, pairs of floats,
    /// sequences, builders, tables, scripts, hands.
    pub count: u64,
    /// The count that `all` stands for, where everything can be had.
    pub all: Option<u64>,
    pub write: fn(&mut List, &mut Draw, u64) -> io::Result<()>,
}

pub const KINDS: [Kind; 8] = [
    Kind { name: "seats", count: 300, all: Some(seats::ALL), write: seats::write },
    Kind { name: "floats", count: 100, all: None, write: floats::write },
    Kind { name: "rounds", count: 600, all: None, write: rounds::write },
    Kind { name: "builds", count: 2200, all: None, write: builds::write },
    Kind { name: "steps", count: 3050, all: None, write: steps::write },
    Kind { name: "settlements", count: 1000, all: None, write: settlements::write },
    Kind { name: "scripts", count: 300, all: None, write: scripts::write },
    Kind { name: "journals", count: 120, all: None, write: journals::write },
];
