//! The rule of document 02, wish 3 once more, told otherwise: all that is wrong
//! with a question is gathered and the lowest number given, bytes are compared
//! as they lie, rows are gone through from the last one, and nothing is
//! divided. Places are written out and nothing is taken from `block`, so a slip
//! in either shows.

use crate::items::ITEMS;

/// The bytes of a table and of the word of its parts.
const TABLE_BYTES: usize = 1408;
const FIRST_WORD: usize = 17;

/// The number that a question gets, and the volume.
pub fn told(image: &[u8], table: u32, level: u32) -> (u8, u32) {
    let faults = faults(image, table, level);
    match (faults.iter().min(), bytes_of(image, table)) {
        (None, Some(table)) => (0, volume(table, level)),
        (number, _) => (number.copied().unwrap_or(0), 0),
    }
}

/// The place of a table among the sixteen. No other numbers are tables.
pub fn place_of(table: u32) -> Option<usize> {
    ITEMS[..16]
        .iter()
        .position(|item| u32::from(item.number) == table)
}

/// The bytes of a table, if there is such a table and the image has them.
pub fn bytes_of(image: &[u8], table: u32) -> Option<&[u8]> {
    let offset = ITEMS[place_of(table)?].offset;
    image.get(offset..offset + TABLE_BYTES)
}

/// The word of a table's parts, if there is such a table and the image has it.
pub fn word_of(image: &[u8], table: u32) -> Option<u16> {
    let offset = FIRST_WORD + 2 * place_of(table)?;
    let bytes = image.get(offset..offset + 2)?;
    Some(u16::from_be_bytes([bytes[0], bytes[1]]))
}

/// The number of each check that does not hold, judged for itself as far as
/// there is anything to judge.
pub fn faults(image: &[u8], table: u32, level: u32) -> Vec<u8> {
    let mut faults = Vec::new();
    let mut judge = |holds: bool, number| {
        if !holds {
            faults.push(number);
        }
    };
    judge(is_usable(image), 1);
    judge(place_of(table).is_some(), 10);
    if let Some(word) = word_of(image, table) {
        judge(word & 2047 == 2047, 12);
    }
    if let Some(bytes) = bytes_of(image, table) {
        judge(!falls(bytes), 13);
        judge(has_level(bytes, level), 14);
    }
    faults
}

/// Check 1 as wish 7 has left it.
pub fn is_usable(image: &[u8]) -> bool {
    image.len() == 23_817
        && image[..5] == *b"IZK\x00\x02"
        && image[5] != 0
        && image[17..49].chunks_exact(2).all(|word| word[0] < 8)
        && image[713..1225].chunks_exact(64).all(|table| table[0] < 22)
}

/// Whether the level or the volume of a row is below that of the row before.
fn falls(table: &[u8]) -> bool {
    let rows = table.chunks_exact(4).rev();
    let mut pairs = rows.clone().zip(rows.skip(1));
    let level = |row: &[u8]| [row[0], row[1]];
    let volume = |row: &[u8]| [row[2], row[3]];
    pairs.any(|(row, before)| level(row) < level(before) || volume(row) < volume(before))
}

/// Whether a level lies from row 1's to row 352's.
fn has_level(table: &[u8], level: u32) -> bool {
    let wide = |row: &[u8]| [0, 0, row[0], row[1]];
    let (first, last) = (&table[..4], &table[table.len() - 4..]);
    (wide(first)..=wide(last)).contains(&level.to_be_bytes())
}

/// Goes back from row 352 to the first that is not above the level.
fn volume(table: &[u8], level: u32) -> u32 {
    let asked = u64::from(level);
    let mut above = None;
    for row in table.chunks_exact(4).rev() {
        let row = [&row[..2], &row[2..]].map(value);
        let [level, volume] = row;
        if level <= asked {
            return above.map_or(volume, |next| highest(row, next, asked)) as u32;
        }
        above = Some(row);
    }
    0
}

fn value(bytes: &[u8]) -> u64 {
    bytes
        .iter()
        .fold(0, |value, &byte| value << 8 | u64::from(byte))
}

/// The highest volume that is not above the line from a row to the next: what it
/// rises, times the row's rise in level, is not above the row's rise in volume,
/// times the distance.
fn highest([level, volume]: [u64; 2], next: [u64; 2], asked: u64) -> u64 {
    let (rise, limit) = (next[0] - level, (next[1] - volume) * (asked - level));
    let (mut low, mut high) = (volume, next[1]);
    while low < high {
        let middle = (low + high).div_ceil(2);
        match (middle - volume) * rise <= limit {
            true => low = middle,
            false => high = middle - 1,
        }
    }
    low
}
