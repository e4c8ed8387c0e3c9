//! Questions that are refused.

use super::{Question, Row};
use crate::coverage::moves::{faults_of, Fault};
use crate::quantity::{place_of, word_of};
use crate::tables::Of;

pub const ROWS: [Row; 62] = [
    ("1 alone", |q| q.is_alone(1)),
    ("1, else 10", |q| q.has_both(1, 10)),
    ("1, else 12", |q| q.has_both(1, 12)),
    ("1, else 13", |q| q.has_both(1, 13)),
    ("1, else 14", |q| q.has_both(1, 14)),
    ("1, else 12, 13 and 14", |q| q.faults == [1, 12, 13, 14]),
    ("1, length alone", |q| spoiled(q, Fault::Source)),
    ("1, mark alone", |q| spoiled(q, Fault::Mark)),
    ("1, version alone", |q| spoiled(q, Fault::Version)),
    ("1, address alone", |q| spoiled(q, Fault::Address)),
    ("1, a row count alone", |q| spoiled(q, Fault::Rows)),
    ("1, a word alone", |q| spoiled(q, Fault::Parts)),
    ("1, all eleven bits and more in its word", |q| {
        q.number == 1 && q.word > 2047 && q.word & 2047 == 2047
    }),
    ("1, more bits in another word", |q| {
        spoiled(q, Fault::Parts) && q.word == 2047
    }),
    ("10, table 0", |q| is_table(q, 0..=0)),
    ("10, table 9 or 10", |q| is_table(q, 9..=10)),
    ("10, table 19", |q| is_table(q, 19..=19)),
    ("10, table 20 to 255", |q| is_table(q, 20..=255)),
    ("10, table 258", |q| is_table(q, 258..=258)),
    ("10, table 268", |q| is_table(q, 268..=268)),
    ("10, a table's number in the low byte", |q| low_bits(q, 8)),
    ("10, table 65,537", |q| is_table(q, 65_537..=65_537)),
    ("10, a table's number in two bytes", |q| low_bits(q, 16)),
    ("10, a table's number in three bytes", |q| low_bits(q, 24)),
    ("10, a table's number in 31 bits", |q| low_bits(q, 31)),
    ("10, table 2^32-1", |q| is_table(q, u32::MAX..=u32::MAX)),
    ("10, no table whole", |q| {
        q.number == 10 && whole_tables(q.image) == 0
    }),
    ("10, all tables whole", |q| {
        q.number == 10 && whole_tables(q.image) == 16
    }),
    ("10, level above 65,535", |q| {
        q.number == 10 && q.level > 65_535
    }),
    ("12 alone", |q| q.is_alone(12)),
    ("12, else 13", |q| q.has_both(12, 13)),
    ("12, else 14", |q| q.has_both(12, 14)),
    ("12, else 13 and 14", |q| q.faults == [12, 13, 14]),
    ("12, no part", |q| q.number == 12 && q.word == 0),
    ("12, two parts missing", |q| missing(q) == 2),
    ("12, more parts missing", |q| (3..11).contains(&missing(q))),
    ("12, all other tables whole", |q| {
        q.number == 12 && whole_tables(q.image) == 15
    }),
    ("12, whole 10 above or below", |q| {
        let beside = [q.table + 10, q.table.wrapping_sub(10)];
        q.number == 12
            && beside
                .map(|table| word_of(q.image, table))
                .contains(&Some(2047))
    }),
    ("12, behind a part of the table", |q| {
        q.number == 12 && q.before == Some(('S', 0)) && q.behind_part
    }),
    ("12, behind a sealed part of the table", |q| {
        q.number == 12 && q.before == Some(('K', 16)) && q.behind_part
    }),
    ("13 alone", |q| q.is_alone(13)),
    ("13, else 14, below row 1", |q| {
        q.has_both(13, 14) && q.ends().is_some_and(|ends| q.level < ends[0])
    }),
    ("13, else 14, above row 352", |q| {
        q.has_both(13, 14) && q.ends().is_some_and(|ends| q.level > ends[1])
    }),
    ("13, else 14, above 65,535", |q| {
        q.has_both(13, 14) && q.level > 65_535
    }),
    ("13, a level once", |q| falls(q) == [1, 0]),
    ("13, a volume once", |q| falls(q) == [0, 1]),
    ("13, levels and volumes", |q| {
        falls(q)[0] > 0 && falls(q)[1] > 0
    }),
    ("13, several times", |q| falls(q)[0] > 1 || falls(q)[1] > 1),
    ("13, the first step", |q| falls_at(q, 1)),
    ("13, the last step", |q| falls_at(q, 351)),
    ("13, by 1", |q| any_fall(q, |before, row| before - row == 1)),
    ("13, in the low byte alone", |q| {
        any_fall(q, |before, row| before >> 8 == row >> 8)
    }),
    ("13, with a higher low byte", |q| {
        any_fall(q, |before, row| row as u8 > before as u8)
    }),
    ("13, on the way from the row asked up", |q| {
        q.is_alone(13) && !fall_is_passed(q)
    }),
    ("13, on the way up to the row asked", |q| {
        q.is_alone(13) && fall_is_passed(q)
    }),
    ("13, behind a part of the table", |q| {
        q.number == 13 && q.before == Some(('S', 0)) && q.behind_part
    }),
    ("14, one below row 1", |q| below(q, 1..=1)),
    ("14, further below row 1", |q| below(q, 2..=65_535)),
    ("14, level 0", |q| q.number == 14 && q.level == 0),
    ("14, one above row 352", |q| above(q, 1..=1)),
    ("14, level 65,535", |q| q.number == 14 && q.level == 65_535),
    ("14, level 65,536", |q| q.number == 14 && q.level == 65_536),
];

/// Wide levels, which a table would have if their upper bits were dropped.
pub const WIDE: [Row; 5] = [
    ("14, the table's level in two bytes", |q| low_level(q, 16)),
    ("14, the table's level in three bytes", |q| low_level(q, 24)),
    ("14, the table's level in 31 bits", |q| low_level(q, 31)),
    ("14, level 2^32-1", |q| {
        q.number == 14 && q.level == u32::MAX
    }),
    ("14, row 352 at 65,535", |q| {
        q.number == 14 && q.ends().is_some_and(|ends| ends[1] == 65_535)
    }),
];

/// Whether the image has this fault and no other.
fn spoiled(q: &Question, fault: Fault) -> bool {
    q.number == 1 && faults_of(q.image, 2, 23_817) == [fault]
}

fn is_table(q: &Question, tables: std::ops::RangeInclusive<u32>) -> bool {
    q.number == 10 && tables.contains(&q.table)
}

/// Whether more bits than these make it no table.
fn low_bits(q: &Question, bits: u32) -> bool {
    q.number == 10 && place_of(q.table % (1 << bits)).is_some()
}

/// Whether more bits than these make it a level above row 352.
fn low_level(q: &Question, bits: u32) -> bool {
    let low = q.level % (1 << bits);
    let has = |ends: [u32; 2]| (ends[0]..=ends[1]).contains(&low);
    q.number == 14 && q.ends().is_some_and(has)
}

/// How many tables have all their parts.
fn whole_tables(image: &[u8]) -> usize {
    let words = image[17..49].chunks_exact(2);
    words.filter(|word| **word == [0x07, 0xFF]).count()
}

/// How many parts are missing of a table that is refused for that.
fn missing(q: &Question) -> u32 {
    match q.number {
        12 => 11 - q.word.count_ones(),
        _ => 0,
    }
}

/// How often levels fall, and volumes.
fn falls(q: &Question) -> [usize; 2] {
    [q.falls[0].len(), q.falls[1].len()]
}

fn falls_at(q: &Question, step: usize) -> bool {
    q.falls.iter().any(|steps| steps.contains(&step))
}

/// Whether some number and the one it falls to are like this.
fn any_fall(q: &Question, fits: fn(u16, u16) -> bool) -> bool {
    let of = [Of::Level, Of::Volume].into_iter().zip(&q.falls);
    let mut falls = of.flat_map(|(of, steps)| steps.iter().map(move |&step| (of, step)));
    falls.any(|(of, step)| fits(of.get(q.rows[step - 1]), of.get(q.rows[step])))
}

/// Whether the only or first fall comes before the first row above the level.
fn fall_is_passed(q: &Question) -> bool {
    let above = q.rows.iter().position(|row| u32::from(row.level) > q.level);
    let first = q.falls.iter().flatten().min();
    first.is_some_and(|&step| step < above.unwrap_or(q.rows.len()))
}

fn below(q: &Question, by: std::ops::RangeInclusive<u32>) -> bool {
    let down = |ends: [u32; 2]| ends[0].checked_sub(q.level);
    q.number == 14
        && q.ends()
            .and_then(down)
            .is_some_and(|down| by.contains(&down))
}

fn above(q: &Question, by: std::ops::RangeInclusive<u32>) -> bool {
    let up = |ends: [u32; 2]| q.level.checked_sub(ends[1]);
    q.number == 14 && q.ends().and_then(up).is_some_and(|up| by.contains(&up))
}
