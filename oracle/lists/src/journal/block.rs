//! A block of 512 bytes: its layout, as far as one block can show it, and its check.

use crate::journal::entry::{self, Entry, Four};
use crate::journal::{EDITION, Title};
use crate::key::Key;
use crate::refusals::{BAD_JOURNAL, NOT_KEPT, Refusal};

pub const BYTES: usize = 512;
/// How many entries a block holds.
pub const ENTRIES: usize = 120;
/// How many blocks a hand may have: they are numbered 0 to 254.
pub const MOST: usize = 255;

/// Where its parts begin.
const FIRST_ENTRY: usize = 16;
const AFTER_ENTRIES: usize = 496;
pub const CHECK: usize = 510;

pub type Bytes = [u8; BYTES];

/// What a block says.
#[derive(PartialEq, Eq, Debug)]
pub struct Block {
    pub title: Title,
    pub index: u8,
    pub is_last: bool,
    pub entries: Vec<Entry>,
}

/// "Byte 510 is the sum of bytes 0 to 509 modulo 255; byte 511 is the sum modulo 255 of the running totals taken
/// after each byte."
pub fn check(bytes: &[u8]) -> [u8; 2] {
    let mut total: u64 = 0;
    let mut sum_of_totals: u64 = 0;
    for &byte in &bytes[..CHECK] {
        total += u64::from(byte);
        sum_of_totals += total;
    }
    [(total % 255) as u8, (sum_of_totals % 255) as u8]
}

/// The block of 1 to 120 entries, from zeros.
pub fn made(title: Title, index: u8, is_last: bool, entries: &[Entry]) -> Bytes {
    let mut bytes = [0; BYTES];
    bytes[0..2].copy_from_slice(&title.key.code.to_le_bytes());
    bytes[2..4].copy_from_slice(&title.key.year.to_le_bytes());
    bytes[4..8].copy_from_slice(&title.key.hand.to_le_bytes());
    bytes[8] = index;
    bytes[9] = is_last.into();
    bytes[10] = u8::try_from(entries.len()).expect("at most 120 entries");
    bytes[11] = title.edition;
    for (place, entry) in bytes[FIRST_ENTRY..AFTER_ENTRIES].chunks_exact_mut(4).zip(entries) {
        place.copy_from_slice(&entry.bytes());
    }
    put_check(&mut bytes);
    bytes
}

/// Puts the check of a block's bytes behind them.
pub fn put_check(bytes: &mut [u8]) {
    let check = check(bytes);
    bytes[CHECK..].copy_from_slice(&check);
}

/// What exactly 512 bytes say, or 27 where they break the layout.
pub fn read(bytes: &[u8]) -> Result<Block, Refusal> {
    let bytes: &Bytes = bytes.try_into().map_err(|_| BAD_JOURNAL)?;
    let used = usize::from(bytes[10]);
    if !has_good_head(bytes) || !has_zeros(bytes, used) || bytes[CHECK..] != check(bytes) {
        return Err(BAD_JOURNAL);
    }
    let fours: Vec<Four> = (0..used).map(|at| four_at(bytes, at)).collect();
    let entries = entry::all(&fours).ok_or(BAD_JOURNAL)?;
    let key = Key::new(
        u16::from_le_bytes([bytes[0], bytes[1]]),
        u16::from_le_bytes([bytes[2], bytes[3]]),
        u32::from_le_bytes([bytes[4], bytes[5], bytes[6], bytes[7]]),
    );
    let title = Title::new(key, bytes[11]);
    Ok(Block { title, index: bytes[8], is_last: bytes[9] == 1, entries })
}

fn has_good_head(bytes: &Bytes) -> bool {
    let has_year = bytes[2] != 0 || bytes[3] != 0;
    let is_numbered = usize::from(bytes[8]) < MOST;
    let is_filled = match bytes[9] {
        0 => bytes[10] == 120,
        1 => 1 <= bytes[10] && bytes[10] <= 120,
        _ => false,
    };
    has_year && is_numbered && is_filled && bytes[11] == EDITION
}

/// Zeros stand where the layout says so, and in the entries that are not used.
fn has_zeros(bytes: &Bytes, used: usize) -> bool {
    let unused = FIRST_ENTRY + 4 * used..AFTER_ENTRIES;
    [12..FIRST_ENTRY, unused, AFTER_ENTRIES..CHECK]
        .into_iter()
        .all(|part| bytes[part].iter().all(|&byte| byte == 0))
}

/// The bytes of an entry's place.
pub fn four_at(bytes: &Bytes, at: usize) -> Four {
    let place = FIRST_ENTRY + 4 * at;
    [bytes[place], bytes[place + 1], bytes[place + 2], bytes[place + 3]]
}

/// The entry that a place of a block belongs to.
pub fn entry_of(place: usize) -> Option<usize> {
    (FIRST_ENTRY..AFTER_ENTRIES).contains(&place).then(|| (place - FIRST_ENTRY) / 4)
}

/// Lays one block from what is left of a hand's entries, and tells whether another must follow. Only the entries of
/// the block are looked at, and how many are left.
pub fn lay(title: Title, index: u8, rest: &[Four]) -> Result<(Bytes, bool), Refusal> {
    let (own, more) = rest.split_at(rest.len().min(ENTRIES));
    let entries = entry::all(own).filter(|entries| !entries.is_empty()).ok_or(BAD_JOURNAL)?;
    if title.edition != EDITION {
        return Err(BAD_JOURNAL);
    }
    let blocks = usize::from(index) + rest.len().div_ceil(ENTRIES);
    if title.key.year == 0 || blocks > MOST {
        return Err(NOT_KEPT);
    }
    Ok((made(title, index, more.is_empty(), &entries), !more.is_empty()))
}
