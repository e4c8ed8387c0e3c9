//! The held-parts question with a table's number of 64 bits: those that are no
//! table's are refused 10, also where some of their lower bits alone would be
//! one's.

use super::super::{Change, Session, Step, FIRST_ERRORS, FIRST_TABLE};
use super::by_frame;
use crate::block::IMAGE_BYTES;
use crate::streams::ask;

/// The first of the sixteen words, a word for each table.
const WORDS: usize = 17;

/// What is asked for, the first being all numbers that fit a byte and are about
/// the limits. Behind the others' upper bits stand the same.
const BASES: [u64; 11] = [
    0,
    256,
    512,
    65_536,
    1 << 24,
    1 << 31,
    1 << 32,
    (1 << 32) + 256,
    1 << 48,
    1 << 63,
    u64::MAX - 255,
];

fn numbers() -> impl Iterator<Item = u64> {
    let behind = |base| (0..=20).chain([255]).map(move |number| base + number);
    BASES.into_iter().flat_map(behind)
}

pub fn held(rule: &'static str, table: u64) -> Step {
    Step::new(rule, 'J', &table.to_be_bytes())
}

/// The tables in the order of their words.
fn tables() -> impl Iterator<Item = u64> {
    (1..=8).chain(11..=18)
}

/// Each of the numbers, with what is held of the tables.
fn all_asked(holds: impl Fn(u64) -> [u8; 2]) -> Vec<Step> {
    let ask_one = |number| match tables().any(|table| table == number) {
        true => {
            let [parts, missing] = holds(number);
            held("a table", number).holds(parts, missing)
        }
        false => held("no table", number).refused(10),
    };
    numbers().map(ask_one).collect()
}

pub fn none_held() -> Vec<Step> {
    all_asked(|_| [0, 1])
}

/// A table, its word, how many parts are held, and the lowest missing one.
const SOME: [(u64, u16, [u8; 2]); 9] = [
    (1, 0x0001, [1, 2]),
    (2, 0x0002, [1, 1]),
    (3, 0x0003, [2, 3]),
    (5, 0x0555, [6, 2]),
    (8, 0x03FF, [10, 11]),
    (11, 0x0400, [1, 1]),
    (12, 0x07FE, [10, 1]),
    (13, 0x07FF, [11, 0]),
    (18, 0x05FF, [10, 10]),
];

pub fn some_parts() -> Session {
    let steps = all_asked(|number| {
        let row = SOME.iter().find(|(table, _, _)| *table == number);
        row.map_or([0, 1], |&(_, _, holds)| holds)
    });
    let mut session = Session::new("table numbers, some parts", steps);
    for (place, table) in tables().enumerate() {
        if let Some((_, word, _)) = SOME.iter().find(|(of, _, _)| *of == table) {
            session = session.holding(WORDS + 2 * place, &word.to_be_bytes());
        }
    }
    session
}

/// All parts of table 12 in another order, one of them twice. The question is
/// asked behind each, of table 2 as well, and behind the last of all numbers.
pub fn all_parts() -> Vec<Step> {
    let place = 9; // behind 1 to 8 and 11
    let mut steps = Vec::new();
    let mut stored = [0; 1408];
    let mut word = 0u16;
    for (part, holds) in [
        (11u8, [1, 1]),
        (1, [2, 2]),
        (3, [3, 2]),
        (3, [3, 2]),
        (2, [4, 4]),
        (4, [5, 5]),
        (6, [6, 5]),
        (7, [7, 5]),
        (5, [8, 8]),
        (8, [9, 9]),
        (10, [10, 9]),
        (9, [11, 0]),
    ] {
        let rows = [part; 128];
        let offset = 128 * usize::from(part - 1);
        stored[offset..offset + 128].copy_from_slice(&rows);
        word |= 1 << (part - 1);
        let frame = ask(1, 59, &[&[12, part], &rows[..]].concat());
        steps.extend([
            by_frame("a part", 0, &frame)
                .writes(&ask(1, 59, &[12, part]))
                .stores(FIRST_TABLE + 1408 * place + offset, &rows)
                .stores(WORDS + 2 * place, &word.to_be_bytes())
                .signs(59, 12, &stored),
            held("with this part", 12).holds(holds[0], holds[1]),
            held("none of table 2", 2).holds(0, 1),
            held("no table 268", 268).refused(10),
            held("no table of 33 bits", (1 << 32) + 12).refused(10),
        ]);
    }
    steps.extend(all_asked(|table| match table {
        12 => [11, 0],
        _ => [0, 1],
    }));
    steps
}

/// A byte of a fresh image that is not as it should be, whose length is, or the
/// length. 1 is before 10.
pub fn spoiled() -> Vec<Step> {
    let byte = |offset, good, bad| {
        let to = |value| Change::Bytes(offset, vec![value]);
        [to(bad), to(good)]
    };
    let length = |bad| [Change::Length(bad), Change::Length(IMAGE_BYTES)];
    let mut steps = Vec::new();
    for [bad, good] in [
        byte(5, 1, 0),
        byte(0, b'I', b'i'),
        byte(1, b'Z', b'K'),
        byte(2, b'K', 0),
        byte(3, 0, 1),
        byte(4, 2, 1),
        byte(WORDS, 0, 8),
        byte(WORDS + 30, 0, 128),
        byte(FIRST_ERRORS, 0, 22),
        byte(FIRST_ERRORS + 7 * 64, 0, 255),
        length(23_753),
        length(23_816),
        length(23_818),
        length(0),
    ] {
        steps.push(held("1", 1).after(&[bad]).refused(1));
        for number in [0, 9, 12, 18, 19, 258, 65_537, (1 << 32) + 2, u64::MAX] {
            steps.push(held("1 before 10", number).refused(1));
        }
        steps.push(held("usable again", 18).after(&[good]).holds(0, 1));
        steps.push(held("10 again", 258).refused(10));
    }
    steps
}

/// Each bit alone, and with a table's number behind it.
pub fn every_bit() -> Vec<Step> {
    let mut steps = Vec::new();
    for bit in 0..64 {
        let number = 1 << bit;
        let alone = held("a bit alone", number);
        steps.push(match number {
            1 | 2 | 4 | 8 | 16 => alone.holds(0, 1),
            _ => alone.refused(10),
        });
        if bit >= 5 {
            for table in [1, 2, 8, 11, 18] {
                steps.push(held("a bit and a table", number + table).refused(10));
            }
        }
    }
    steps
}
