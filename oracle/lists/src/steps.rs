//! The kind `steps`: sequences of steps on records.

use std::io;

use crate::draw::Draw;
use crate::line::Line;
use crate::list::List;
use crate::step::Step;
use crate::table::Table;
use crate::{broken, differences, edges, hands, play, tables};

pub fn write(list: &mut List, draw: &mut Draw, count: u64) -> io::Result<()> {
    put_hands(list, hands::bets())?;
    list.put_all(differences::steps())?;
    put_hands(list, hands::walked())?;
    for _ in 0..count {
        match draw.below(13) {
            0 => on_unsound(list, draw)?,
            1 => edges::write(list, draw)?,
            _ => on_sound(list, draw)?,
        }
    }
    Ok(())
}

fn put_hands(list: &mut List, hands: Vec<(Table, Step)>) -> io::Result<()> {
    for (mut table, step) in hands {
        list.put(Line::new('T').new_table(&table))?;
        list.put(step.take(&mut table))?;
    }
    Ok(())
}

fn on_sound(list: &mut List, draw: &mut Draw) -> io::Result<()> {
    let (mut table, played) = match draw.below(10) {
        0 => (tables::built(draw), false),
        1..=2 => (tables::new_game(draw), true),
        3..=5 => (tables::half_played(draw), draw.once_in(2)),
        _ => (tables::strange(draw), false),
    };
    list.put(Line::new('T').new_table(&table))?;
    for _ in 0..draw.within(1, 20) {
        let choose = if played { play::in_turn } else { play::at_random };
        list.put(choose(draw, &table).take(&mut table))?;
        if played && play::is_over(&table) && draw.once_in(3) {
            break;
        }
    }
    Ok(())
}

fn on_unsound(list: &mut List, draw: &mut Draw) -> io::Result<()> {
    let mut table = broken::table(draw);
    list.put(Line::new('U').new_table(&table))?;
    for _ in 0..draw.within(1, 8) {
        // A query never refuses, and the Rust cannot be asked here: a fold instead.
        let step = match play::at_random(draw, &table) {
            Step::Query(_) => Step::Fold,
            step => step,
        };
        list.put(step.take(&mut table))?;
    }
    Ok(())
}
