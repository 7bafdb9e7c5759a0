//! Makes an input small: one word after another is set to something plain, while the difference stays.

use lists::places::NUMBERS;
use lists::step::Step;
use lists::table::{Table, WORDS};

const PLAIN: [f32; 5] = [0.0, 1.0, 10.0, 100.0, 1000.0];

/// The table and the step, each part as plain as it comes.
pub fn step(table: &Table, step: &Step, differs: impl Fn(&Table, &Step) -> bool) -> (Table, Step) {
    let (mut table, mut step) = (table.clone(), *step);
    loop {
        let smaller = smaller_table(&table, |table| differs(table, &step));
        let other = plain_step(&step).into_iter().find(|other| differs(&smaller, other));
        let settled = other.is_none() && smaller.words == table.words;
        table = smaller;
        step = other.unwrap_or(step);
        if settled {
            return (table, step);
        }
    }
}

/// A table whose words are plainer, with `differs` still true.
pub fn smaller_table(table: &Table, differs: impl Fn(&Table) -> bool) -> Table {
    let mut table = table.clone();
    for at in 0..WORDS {
        let tries = if at < NUMBERS { smaller_number(&table, at) } else { plainer(&table, at) };
        for word in tries {
            let kept = std::mem::replace(&mut table.words[at], word);
            if differs(&table) {
                break;
            }
            table.words[at] = kept;
        }
    }
    table
}

/// Fewer seats take the round's list with them.
fn smaller_number(table: &Table, at: usize) -> Vec<u32> {
    (0..table.words[at].min(4)).collect()
}

fn plainer(table: &Table, at: usize) -> Vec<u32> {
    let x = table.float(at);
    let tries = PLAIN.into_iter().chain([x.trunc()]);
    let at_hand = PLAIN.iter().position(|plain| plain.to_bits() == x.to_bits());
    tries
        .take(at_hand.unwrap_or(usize::MAX))
        .map(f32::to_bits)
        .filter(|&word| word != x.to_bits())
        .collect()
}

/// The same step with a plainer amount.
fn plain_step(step: &Step) -> Vec<Step> {
    let (amount, with): (f32, &dyn Fn(f32) -> Step) = match *step {
        Step::Bet(amount) => (amount, &Step::Bet),
        Step::Forced(amount) => (amount, &Step::Forced),
        Step::Award(seat, amount) => (amount, &move |plain| Step::Award(seat, plain)),
        _ => return Vec::new(),
    };
    let at_hand = PLAIN.iter().position(|plain| plain.to_bits() == amount.to_bits());
    let tries = PLAIN.into_iter().chain([amount.trunc()]).take(at_hand.unwrap_or(usize::MAX));
    tries.filter(|plain| plain.to_bits() != amount.to_bits()).map(with).collect()
}

#[cfg(test)]
mod tests {
    use lists::draw::Draw;
    use lists::step::Step;
    use lists::table::{Table, place};

    /// Of all that a drawn table has, only what the difference needs is left.
    #[test]
    fn what_has_no_part_in_it_goes() {
        let table = lists::tables::half_played(&mut Draw::new(7));
        let differs = |table: &Table, step: &Step| {
            let asked = matches!(step, Step::Bet(amount) if *amount >= 50.0);
            asked && table.get(place::NUM_PLAYERS) >= 2 && table.float(place::STACKS) >= 0.0
        };
        let (table, step) = super::step(&table, &Step::Bet(777.7), differs);
        let mut least = Table::ZEROS;
        least.set(place::NUM_PLAYERS, 2);
        assert!(table.words == least.words);
        assert!(matches!(step, Step::Bet(100.0)));
    }
}
