//! The hand journal against the oracle's writer and reader, and against the script that a hand was played by.

use lists::draw::Draw;
use lists::journal::{self as theirs, block, entry::Four, hand};
use lists::key::{self, Key};
use peatcloak::arena::HandKey;
use peatcloak::journal::{
    BLOCK, BLOCK_ENTRIES, EDITION, HAND_BLOCKS, HAND_ENTRIES, Hand, HandReader, JournalError,
    ReplayError, Title, first_hand, read_block, replay,
};
use peatcloak::script::play_table;

const KEY: HandKey = HandKey { code: 3, year: 2026, hand: 7 };

fn title_of(theirs: theirs::Title) -> Title {
    let Key { code, year, hand } = theirs.key;
    Title { key: HandKey { code, year, hand }, edition: theirs.edition }
}

/// A hand of a script's lines, without its `k`.
fn hand_of(title: Title, script: &str) -> Hand {
    let mut hand = Hand::new(title);
    for line in script.lines() {
        let mut words = line.split(' ');
        let letter = words.next().expect("a letter").as_bytes()[0];
        let numbers: Vec<u16> = words.map(|word| word.parse().expect("a number")).collect();
        hand.push(letter, &numbers).expect("a line of a hand");
    }
    hand
}

/// Lines that may be a hand: its `t`, and mostly lines that go with it.
fn drawn_lines(draw: &mut Draw) -> Vec<hand::Line> {
    let stacks = draw.within(0, 17);
    let numbers = |draw: &mut Draw, count: usize| -> Vec<u16> {
        (0..count).map(|_| draw.pick(&[0, 1, 10, 255, 256, u16::MAX])).collect()
    };
    let mut lines = vec![hand::Line::new(b't', &numbers(draw, 4 + stacks))];
    for _ in 0..draw.pick(&[0, 1, 5, 60, 120, 300]) {
        let (letter, count) = match draw.below(400) {
            0 => (b't', 4 + stacks),
            1 => (b'w', stacks + 1),
            2..100 => (draw.pick(b"bp"), 1),
            100..150 => (b'w', stacks),
            _ => (draw.pick(b"nfx"), 0),
        };
        lines.push(hand::Line::new(letter, &numbers(draw, count)));
    }
    lines
}

/// The number of a refusal, or what was accepted.
fn told<T>(answer: Result<T, JournalError>) -> Result<T, u32> {
    answer.map_err(JournalError::number)
}

#[test]
fn a_hand_is_written_and_read_as_the_oracle_does() {
    let mut draw = Draw::new(1);
    let [mut written, mut refused] = [0, 0];
    for _ in 0..2000 {
        let edition = if draw.once_in(20) { draw.pick(&[0, 2, 255]) } else { EDITION };
        let title = theirs::Title::new(key::good(&mut draw), edition);
        let lines = drawn_lines(&mut draw);
        let mut ours = Hand::new(title_of(title));
        lines.iter().for_each(|line| ours.push(line.letter, &line.numbers).expect("a line"));
        let tape: Vec<Four> = lines.iter().flat_map(hand::Line::fours).collect();
        assert_eq!(ours.entries(), tape.len());
        let image = told(ours.write());
        assert_eq!(image, hand::write(title, &tape));
        match image {
            Ok(bytes) => {
                reads_back(&bytes, title, &lines);
                blocks_are(&ours, &bytes);
                written += 1;
            }
            Err(_) => refused += 1,
        }
    }
    assert!(written > 1000 && refused > 300, "{written} written, {refused} refused");
}

fn reads_back(bytes: &[u8], title: theirs::Title, lines: &[hand::Line]) {
    let read = HandReader::new(bytes).expect("it was written");
    assert_eq!((read.title(), read.blocks()), (title_of(title), bytes.len() / BLOCK));
    let entries: usize = lines.iter().map(|line| 1 + line.numbers.len()).sum();
    assert_eq!(read.entries(), entries);
    assert_eq!(read.lines().count(), lines.len());
    for (ours, line) in read.into_iter().zip(lines) {
        assert_eq!((ours.letter, ours.count), (line.letter, line.numbers.len()));
        assert_eq!(ours.numbers(), &line.numbers[..ours.count.min(20)]);
    }
}

/// Block by block it is the same hand, and each block tells what it is.
fn blocks_are(hand: &Hand, bytes: &[u8]) {
    let blocks = bytes.len() / BLOCK;
    for (index, expected) in bytes.chunks(BLOCK).enumerate() {
        let (block, follows) = hand.block(index as u8).expect("a block of a hand");
        assert_eq!((&block[..], follows), (expected, index + 1 < blocks));
        let head = read_block(&block).expect("a block");
        assert_eq!((head.title, usize::from(head.index)), (hand.title(), index));
        assert_eq!(head.is_last, index + 1 == blocks);
        let used =
            if head.is_last { hand.entries() - BLOCK_ENTRIES * index } else { BLOCK_ENTRIES };
        assert_eq!(usize::from(head.entries), used);
    }
    if blocks < HAND_BLOCKS {
        assert_eq!(hand.block(blocks as u8), Err(JournalError::BadJournal));
    }
}

#[test]
fn damaged_bytes_are_read_as_the_oracle_reads_them() {
    let mut draw = Draw::new(2);
    let title = Title::new(KEY);
    let raises: String = (2..70).map(|n| format!("b {}\n", 10 * n)).collect();
    let good =
        hand_of(title, &format!("t 0 10 5 0 9000 9000\n{raises}f\n")).write().expect("a hand");
    let mut accepted = 0;
    for _ in 0..20_000 {
        let mut bytes = good.clone();
        for _ in 0..draw.pick(&[1, 1, 2, 4]) {
            let at = draw.below(bytes.len());
            bytes[at] = draw.pick(&[0, 1, 2, 98, 119, 120, 254, 255]);
        }
        if draw.once_in(3) {
            let from = BLOCK * draw.below(bytes.len() / BLOCK);
            block::put_check(&mut bytes[from..from + BLOCK]);
        }
        if draw.once_in(10) {
            bytes.truncate(draw.below(good.len() + 1));
        }
        let ours =
            told(HandReader::new(&bytes).map(|read| (read.title(), read.blocks(), read.entries())));
        let read =
            hand::read(&bytes).map(|read| (title_of(read.title), read.blocks, read.entries.len()));
        assert_eq!(ours, read);
        accepted += usize::from(ours.is_ok());
        for part in bytes.chunks(BLOCK) {
            let ours = told(
                read_block(part).map(|head| (head.title, head.index, head.is_last, head.entries)),
            );
            let read = block::read(part).map(|read| {
                (title_of(read.title), read.index, read.is_last, read.entries.len() as u8)
            });
            assert_eq!(ours, read);
        }
    }
    assert!(accepted > 100, "{accepted} accepted");
}

#[test]
fn every_damage_of_one_bit_is_found() {
    let good = hand_of(Title::new(KEY), "t 0 10 5 0 100 100\nn\nn\nn\np 5\np 10\nb 20\nf")
        .write()
        .expect("a hand");
    assert!(HandReader::new(&good).is_ok());
    for bit in 0..8 * good.len() {
        let mut bytes = good.clone();
        bytes[bit / 8] ^= 1 << (bit % 8);
        assert_eq!(HandReader::new(&bytes), Err(JournalError::BadJournal), "bit {bit}");
    }
}

#[test]
fn a_line_that_no_hand_has_is_27_and_is_not_pushed() {
    let mut hand = hand_of(Title::new(KEY), "t 0 10 5 0 100 100");
    let before = hand.clone();
    let bad: [(u8, &[u16]); 8] = [
        (b'k', &[3, 2026, 7]),
        (b'l', &[1, 0]),
        (0, &[]),
        (b't', &[0, 10, 5]),
        (b'n', &[1]),
        (b'b', &[]),
        (b'p', &[1, 2]),
        (b'x', &[0]),
    ];
    for (letter, numbers) in bad {
        assert_eq!(hand.push(letter, numbers), Err(JournalError::BadJournal));
        assert_eq!(hand, before);
    }
    assert_eq!(hand.push(b'w', &[1, 2, 3]), Ok(()));
    assert_eq!(hand.write(), Err(JournalError::BadJournal));
    assert_eq!(Hand::new(Title::new(KEY)).write(), Err(JournalError::BadJournal));
}

#[test]
fn a_hand_has_30600_entries_at_most_and_27_comes_before_28() {
    let mut hand = hand_of(Title::new(KEY), "t 0 10 5 0 100 100");
    while hand.entries() < HAND_ENTRIES {
        hand.push(b'f', &[]).expect("a line");
    }
    let bytes = hand.write().expect("a hand of the most entries");
    assert_eq!((bytes.len(), hand.entries()), (BLOCK * HAND_BLOCKS, HAND_ENTRIES));
    blocks_are(&hand, &bytes);
    assert_eq!(hand.block(255), Err(JournalError::BadJournal));
    hand.push(b'f', &[]).expect("a line");
    assert_eq!(hand.write(), Err(JournalError::NotKept));
    assert_eq!(
        (hand.block(254), hand.block(0)),
        (Err(JournalError::NotKept), Err(JournalError::NotKept))
    );
    assert_eq!(hand.block(255), Err(JournalError::NotKept));
    hand.push(b'w', &[1]).expect("a line");
    assert_eq!(hand.write(), Err(JournalError::BadJournal));
    let no_key = hand_of(Title::new(HandKey::NONE), "t 0 10 5 0 100 100");
    assert_eq!(no_key.write(), Err(JournalError::NotKept));
    let [old, new] =
        [0, 2].map(|edition| hand_of(Title { key: HandKey::NONE, edition }, "t 0 10 5 0 100 100"));
    assert_eq!(
        [old.write(), new.write()],
        [Err(JournalError::BadJournal), Err(JournalError::BadJournal)]
    );
}

const PLAYED: [&str; 4] = [
    "t 0 10 5 0 100 100",
    "t 0 10 5 0 100 100\nn\nn\nn\np 5\np 10\nb 20\nf\nx\nw 7 3",
    "t 2 10 5 1 100 100 30 0\nn\np 1\np 1\np 1",
    "t 0 10 5 0 9 9 9 9 9 9 9 9 9 9 9 9 9 9 9 9\nn\nn\nn\np 5\nf\nf",
];

#[test]
fn a_replay_leads_to_the_table_of_the_script() {
    for lines in PLAYED {
        let bytes = hand_of(Title::new(KEY), lines).write().expect("a hand");
        let table = replay(&bytes).expect("every line is accepted");
        assert_eq!(
            table,
            play_table(format!("k 3 2026 7\n{lines}\n").as_bytes()).expect("a table")
        );
        assert_eq!(table.hand_key(), Some(KEY));
        assert_eq!(HandReader::new(&bytes).expect("a hand").replay(), Ok(table));
    }
}

#[test]
fn a_replay_tells_which_line_is_refused() {
    let refused = |lines: &str| {
        replay(&hand_of(Title::new(KEY), lines).write().expect("a hand")).expect_err("a refusal")
    };
    let seventeen = format!("t 0 10 5 0{}", " 9".repeat(17));
    assert_eq!(refused(&seventeen), ReplayError::Refused { line: 0, number: 3 });
    assert_eq!(
        refused("t 0 10 5 0 100 100\nn\nn\nn\np 5\np 10\nb 9\nf"),
        ReplayError::Refused { line: 6, number: 16 }
    );
    assert_eq!(
        refused(&format!("{}\nw 7 3", PLAYED[1])),
        ReplayError::Refused { line: 10, number: 24 }
    );
    assert_eq!(replay(b""), Err(ReplayError::BadJournal));
    assert_eq!(replay(&[0; BLOCK]), Err(ReplayError::BadJournal));
}

#[test]
fn hands_of_a_card_are_found_one_by_one() {
    let titles = [7, 8, 9].map(|hand| Title::new(HandKey { hand, ..KEY }));
    let raises: String = (2..70).map(|n| format!("b {}\n", 10 * n)).collect();
    let long = format!("t 0 10 5 0 9000 9000\n{raises}f");
    let hands = [PLAYED[1], &long, PLAYED[0]];
    let images: Vec<Vec<u8>> = titles
        .iter()
        .zip(hands)
        .map(|(&title, lines)| hand_of(title, lines).write().expect("a hand"))
        .collect();
    let card = images.concat();
    let mut rest = &card[..];
    for (title, image) in titles.into_iter().zip(&images) {
        let (hand, behind) = first_hand(rest).expect("a hand");
        assert_eq!((hand.title(), hand.blocks()), (title, image.len() / BLOCK));
        assert_eq!(HandReader::new(image), Ok(hand));
        rest = behind;
    }
    assert_eq!(first_hand(rest), Err(JournalError::BadJournal));
    assert_eq!(
        first_hand(&card[..images[0].len() + BLOCK]).expect("the first").0.title(),
        titles[0]
    );
    assert_eq!(first_hand(&card[BLOCK..2 * BLOCK]), Err(JournalError::BadJournal));
    assert_eq!(first_hand(&card[2 * BLOCK..]), Err(JournalError::BadJournal));
}
