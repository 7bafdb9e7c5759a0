// Two hands on a card: each is collected line by line, written as blocks, found again, read and played.

use peatcloak::arena::HandKey;
use peatcloak::journal::{Hand, Line, Title, first_hand};

fn hand(hand: u32, lines: &[(u8, &[u16])]) -> Hand {
    let mut collected = Hand::new(Title::new(HandKey { code: 3, year: 2026, hand }));
    for &(letter, numbers) in lines {
        collected.push(letter, numbers).expect("a line of a hand");
    }
    collected
}

/// A line as a script has it.
fn shown(line: &Line) -> String {
    let numbers = line.numbers().iter().map(|number| format!(" {number}"));
    char::from(line.letter).to_string() + &numbers.collect::<String>()
}

fn main() {
    let first = hand(
        7,
        &[(b't', &[0, 10, 5, 0, 100, 100]), (b'n', &[]), (b'n', &[]), (b'n', &[]), (b'p', &[5])],
    );
    let second = hand(8, &[(b't', &[1, 20, 10, 0, 200, 200, 200]), (b'n', &[]), (b'f', &[])]);
    let card = [first, second].map(|hand| hand.write().expect("a hand with a key")).concat();
    println!("the card has {} bytes", card.len());

    let mut rest = &card[..];
    while !rest.is_empty() {
        let (hand, behind) = first_hand(rest).expect("a hand");
        let HandKey { code, year, hand: number } = hand.title().key;
        println!(
            "table {code}, year {year}, hand {number}; blocks {}, entries {}",
            hand.blocks(),
            hand.entries()
        );
        for line in hand.lines() {
            println!("  {}", shown(&line));
        }
        let table = hand.replay().expect("every line is accepted");
        println!("  pot {}, {} to act", table.total_pot(), table.to_act_idx());
        rest = behind;
    }
}
