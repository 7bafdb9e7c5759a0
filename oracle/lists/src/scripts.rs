//! The kind `scripts`: scripts with what they print. Each case is a script by
//! itself; those made by hand come first, then those drawn. Those with keys follow, by hand and drawn.

pub mod drawn;
mod forms;
mod keys;
mod limits;
pub mod player;
mod pots;
pub mod reading;
mod refused;
pub mod written;

use std::io;

use crate::draw::Draw;
use crate::list::List;
use written::Case;

pub fn write(list: &mut List, draw: &mut Draw, count: u64) -> io::Result<()> {
    for case in by_hand() {
        case.put(list)?;
    }
    for number in 1..=count {
        drawn::case(draw, number).put(list)?;
    }
    for case in keys::all() {
        case.put(list)?;
    }
    for number in 1..=count / 5 {
        drawn::keyed(draw, number).put(list)?;
    }
    Ok(())
}

fn by_hand() -> Vec<Case> {
    let mut cases = forms::all();
    cases.extend(refused::all());
    cases.extend(pots::all());
    cases.extend(limits::all());
    cases
}
