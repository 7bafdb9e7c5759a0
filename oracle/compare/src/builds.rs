//! Builders.

use lists::builder::Builder;
use lists::builders;
use lists::carry;
use lists::draw::Draw;
use lists::faults::FAULTS;
use lists::key::{self, Key};
use lists::line::Line;
use lists::places::{AMOUNTS, GIVEN, NUMBERS, amount, given};
use lists::table::{MAX_SEATS, Table, place};

use crate::boundary::{self, Given};
use crate::difference::{Difference, shown, tell_places};
use crate::same;
use crate::tally::{Kind, Tally};

/// A good builder, with none to three faults, and a key or none.
pub fn any(draw: &mut Draw, tally: &mut Tally) -> Result<(), Box<Difference>> {
    let mut builder = builders::good(draw);
    for _ in 0..draw.pick(&[0, 0, 0, 0, 1, 1, 2, 3]) {
        draw.pick(&FAULTS)(draw, &mut builder);
    }
    builder.key = match draw.below(8) {
        0..=3 => None,
        4 => Some(key::bad(draw)),
        _ => Some(key::good(draw)),
    };
    tally.count(Kind::Build, builder.build().err().unwrap_or(0));
    if is_same(&builder) { Ok(()) } else { Err(told(&smaller(builder))) }
}

fn is_same(builder: &Builder) -> bool {
    let before = before(builder);
    let mut got = before.clone();
    let refused = ours(&mut got, builder);
    match builder.build() {
        Err(number) => refused == number && got.words == before.words,
        Ok(table) => refused == 0 && same::tables(&got, &same::laid_over(table, &before), &[]),
    }
}

/// The hand that was at the table before, and what stands at the words that no call reads or writes.
const OLD_KEY: Key = Key::new(7, 1999, 99);
const FREE_WORD: u32 = 0xdead_beef;

/// Given round data stands at its places before the call; of a longer list, its first 16 places. The last hand's key
/// stands there too.
fn before(builder: &Builder) -> Table {
    let mut table = Table::ZEROS;
    OLD_KEY.put(&mut table);
    table.words[place::FREE..NUMBERS].fill(FREE_WORD);
    if let Some(data) = &builder.round_data {
        let mut sixteen = data.clone();
        sixteen.player_bet.truncate(MAX_SEATS);
        carry::put_round_data(&mut table, &sixteen);
        table.set(place::ROUND_LENGTH, data.player_bet.len());
    }
    table
}

fn ours(table: &mut Table, builder: &Builder) -> u32 {
    let mut with = Given {
        stacks: builder.stacks.as_deref().unwrap_or(&[]),
        player_bet: builder.player_bet.as_deref().unwrap_or(&[]),
        board: builder.board.as_deref().unwrap_or(&[]),
        amounts: [0.0; AMOUNTS],
        given: [FREE_WORD; GIVEN],
    };
    let amounts = [
        (amount::BIG_BLIND, builder.big_blind),
        (amount::SMALL_BLIND, builder.small_blind),
        (amount::ANTE, builder.ante),
    ];
    amounts.iter().for_each(|&(place, x)| with.amounts[place] = x.unwrap_or_default());
    words(builder).iter().for_each(|&(place, word)| with.given[place] = word);
    boundary::build(table, &with)
}

/// What is given, and its number.
fn words(builder: &Builder) -> [(usize, u32); given::FREE] {
    let cap = builder.cap.flatten();
    let key = builder.key.unwrap_or(Key::NONE);
    [
        (given::STACKS, builder.stacks.is_some().into()),
        (given::BIG_BLIND, builder.big_blind.is_some().into()),
        (given::SMALL_BLIND, builder.small_blind.is_some().into()),
        (given::ANTE, builder.ante.is_some().into()),
        (given::DEALER, builder.dealer_idx.is_some().into()),
        (given::DEALER_IS, builder.dealer_idx.unwrap_or(0) as u32),
        (given::CAP, builder.cap.is_some().into()),
        (given::CAP_CAPS, cap.is_some().into()),
        (given::CAP_IS, cap.unwrap_or(0).into()),
        (given::ROUND, builder.round.is_some().into()),
        (given::ROUND_IS, builder.round.unwrap_or(0) as u32),
        (given::BOARD, builder.board.is_some().into()),
        (given::HANDS, builder.hands.is_some().into()),
        (given::HANDS_ARE, builder.hands.unwrap_or(0) as u32),
        (given::PLAYER_BET, builder.player_bet.is_some().into()),
        (given::ROUND_DATA, builder.round_data.is_some().into()),
        (given::KEY, builder.key.is_some().into()),
        (given::KEY_CODE, key.code.into()),
        (given::KEY_YEAR, key.year.into()),
        (given::KEY_HAND, key.hand),
    ]
}

/// As few fields as still differ.
fn smaller(mut builder: Builder) -> Builder {
    let drop_one: [fn(&mut Builder); 10] = [
        |builder| builder.small_blind = None,
        |builder| builder.ante = None,
        |builder| builder.dealer_idx = None,
        |builder| builder.cap = None,
        |builder| builder.round = None,
        |builder| builder.board = None,
        |builder| builder.hands = None,
        |builder| builder.player_bet = None,
        |builder| builder.round_data = None,
        |builder| builder.key = None,
    ];
    for drop in drop_one {
        let mut fewer = builder.clone();
        drop(&mut fewer);
        if !is_same(&fewer) {
            builder = fewer;
        }
    }
    builder
}

fn told(builder: &Builder) -> Box<Difference> {
    let mut got = before(builder);
    let refused = ours(&mut got, builder);
    let mut told = format!("{}\n", builder.write(Line::new('b')).text());
    told += &format!("ours  refused {refused}, {}\n", shown(&got));
    match builder.build() {
        Err(number) => told += &format!("Rust  refused {number}\n"),
        Ok(table) => tell_places(&mut told, &got, &same::laid_over(table, &before(builder)), &[]),
    }
    Difference::new(told)
}
