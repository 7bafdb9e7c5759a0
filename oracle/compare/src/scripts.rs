//! Scripts, ours against the oracle's player of them on the Rust's tables: what is printed, and the table at the end.

use lists::draw::Draw;
use lists::scripts::drawn;
use lists::scripts::player::{self, MOST_BYTES};
use lists::table::Table;
use peatcloak::script;

use crate::boundary;
use crate::difference::{Difference, tell_places};
use crate::same;
use crate::tally::{Kind, Tally};

pub fn any(draw: &mut Draw, tally: &mut Tally) -> Result<(), Box<Difference>> {
    let case = if draw.once_in(2) { drawn::keyed(draw, 1) } else { drawn::case(draw, 1) };
    let theirs = player::play(&case.script);
    let ours = script::play(&case.script);
    for line in theirs.lines() {
        let number = line.split(' ').nth(1).and_then(|number| number.parse().ok());
        tally.count(Kind::Script, number.expect("a line's second word is its number"));
    }
    if ours != theirs.as_bytes() {
        return Err(printed(&case.script, &String::from_utf8_lossy(&ours), &theirs));
    }
    let script = ending(draw, &case.script);
    same_end(draw, &script, tally)
}

/// The whole script, its first lines, where often no table stands, or more than a script may have.
fn ending(draw: &mut Draw, script: &[u8]) -> Vec<u8> {
    let lines = script.split_inclusive(|&byte| byte == b'\n');
    let count = match draw.below(8) {
        0 => return [script, &[b'\n'; MOST_BYTES]].concat(),
        1..=2 => draw.below(4),
        3..=4 => draw.below(lines.clone().count()),
        _ => return script.to_vec(),
    };
    lines.take(count).collect::<Vec<_>>().concat()
}

fn printed(script: &[u8], ours: &str, theirs: &str) -> Box<Difference> {
    let mut lines = ours.lines().zip(theirs.lines());
    let same = lines.by_ref().take_while(|(a, b)| a == b).count();
    // No line after the first that differs has a part in it.
    let script: Vec<_> = script.split_inclusive(|&byte| byte == b'\n').take(same + 1).collect();
    let script = String::from_utf8_lossy(&script.concat()).into_owned();
    let line = |text: &str| text.lines().nth(same).unwrap_or("nothing").to_string();
    let told = format!("script\n{script}\nours  {}\nRust  {}\n", line(ours), line(theirs));
    Difference::new(told)
}

/// The table that the script leads to, word for word, with its key; it is laid over anything at all.
fn same_end(draw: &mut Draw, script: &[u8], tally: &mut Tally) -> Result<(), Box<Difference>> {
    let before = Table { words: std::array::from_fn(|_| draw.bits() as u32) };
    let mut got = before.clone();
    let refused = boundary::play_table(&mut got, script);
    let expected = player::table_at_end(script).map(|table| same::laid_over(table, &before));
    tally.count(Kind::ScriptEnd, expected.as_ref().err().copied().unwrap_or(0));
    let is_same = match &expected {
        Err(number) => refused == *number && got.words == before.words,
        Ok(table) => refused == 0 && same::tables(&got, table, &[]),
    };
    if is_same {
        return Ok(());
    }
    let text = String::from_utf8_lossy(script);
    let (count, text) = (script.len(), text.trim_end());
    let mut told = format!("script of {count} bytes\n{text}\nat its end: ours refused {refused}\n");
    match &expected {
        Err(number) => told += &format!("Rust  refused {number}\n"),
        Ok(table) => tell_places(&mut told, &got, table, &[]),
    }
    Err(Difference::new(told))
}
