//! The kind `settlements`: records, each settled once or twice.

use std::io;

use crate::draw::Draw;
use crate::list::List;
use crate::table::Table;
use crate::{broken, pots, settled_hands, settlement, step};

pub fn write(list: &mut List, draw: &mut Draw, count: u64) -> io::Result<()> {
    for (mut table, ranks) in settled_hands::all() {
        list.put(step::loading(&table))?;
        list.put(settlement::settle(&mut table, &ranks))?;
        list.put(settlement::settle(&mut table, &ranks))?;
    }
    for _ in 0..count {
        let mut table = drawn(draw);
        list.put(step::loading(&table))?;
        settle(list, draw, &mut table)?;
        if draw.once_in(4) {
            settle(list, draw, &mut table)?;
        }
    }
    Ok(())
}

/// Mostly a fair table; else one with up to two things spoiled, sound or not.
pub fn drawn(draw: &mut Draw) -> Table {
    let mut table = pots::fair(draw);
    let kind = draw.below(12);
    if kind < 4 {
        for _ in 0..draw.within(1, 2) {
            pots::spoil(draw, &mut table);
        }
    }
    if kind == 0 {
        broken::break_one(draw, &mut table);
        table.clear_tails();
    }
    table
}

fn settle(list: &mut List, draw: &mut Draw, table: &mut Table) -> io::Result<()> {
    let ranks = ranks(draw, settlement::rank_count(table));
    list.put(settlement::settle(table, &ranks))
}

/// Ranks of few kinds, so that some are equal, or of any kind.
pub fn ranks(draw: &mut Draw, count: usize) -> Vec<u16> {
    let kinds = draw.pick(&[1, 2, 2, 3, 3, 5, 1 << 16]);
    let lowest = draw.below((1 << 16) - kinds + 1);
    (0..count).map(|_| (lowest + draw.below(kinds)) as u16).collect()
}
