//! The kind `builds`: GameStateBuilder.

use std::io;

use crate::builder::Builder;
use crate::builders;
use crate::differences;
use crate::draw::Draw;
use crate::faults::FAULTS;
use crate::hands;
use crate::key::{self, Key};
use crate::line::Line;
use crate::list::List;

pub fn write(list: &mut List, draw: &mut Draw, count: u64) -> io::Result<()> {
    for builder in hands::builders().into_iter().chain(differences::builders()) {
        put(list, &builder)?;
    }
    every_pair(list, draw)?;
    for _ in 0..count {
        let mut builder = builders::good(draw);
        for _ in 0..draw.pick(&[0, 0, 0, 0, 1, 1, 2, 3]) {
            draw.pick(&FAULTS)(draw, &mut builder);
        }
        put(list, &builder)?;
    }
    keyed(list, draw)?;
    for _ in 0..count / 10 {
        let mut builder = builders::good(draw);
        for _ in 0..draw.pick(&[0, 0, 0, 1]) {
            draw.pick(&FAULTS)(draw, &mut builder);
        }
        let is_bad = draw.once_in(4);
        builder.key = Some(if is_bad { key::bad(draw) } else { key::good(draw) });
        put(list, &builder)?;
    }
    Ok(())
}

/// Keys at both sides of the rule, and a bad one behind each fault: it is looked at last.
fn keyed(list: &mut List, draw: &mut Draw) -> io::Result<()> {
    let most = Key::new(u16::MAX, u16::MAX, u32::MAX);
    let good = [Key::NONE, Key::new(0, 1, 0), Key::new(3, 2026, 7), Key::new(3, 2027, 7), most];
    let bad = [Key::new(5, 0, 0), Key::new(0, 0, 7), Key::new(5, 0, 7)];
    for key in good.into_iter().chain(bad) {
        let stacks = Some(vec![100.0; 2]);
        let builder =
            Builder { stacks, big_blind: Some(10.0), key: Some(key), ..Builder::default() };
        put(list, &builder)?;
    }
    for fault in FAULTS {
        let mut builder = builders::good(draw);
        fault(draw, &mut builder);
        builder.key = Some(key::bad(draw));
        put(list, &builder)?;
    }
    Ok(())
}

/// Each fault alone and beside each other one, so that the order shows. The one
/// put in last may undo the first, so both orders are tried.
fn every_pair(list: &mut List, draw: &mut Draw) -> io::Result<()> {
    for first in FAULTS {
        for second in FAULTS {
            let mut builder = builders::good(draw);
            first(draw, &mut builder);
            second(draw, &mut builder);
            put(list, &builder)?;
        }
    }
    Ok(())
}

fn put(list: &mut List, builder: &Builder) -> io::Result<()> {
    let line = builder.write(Line::new('b'));
    list.put(match builder.build() {
        Ok(table) => line.answer().new_table(&table),
        Err(number) => line.refused(number),
    })
}
