//! Fixed calls of document 02, wish 3: the volume of a table at a level. It is
//! that of the last row whose level is at or below the one asked; if this is not
//! row 352, there is added the rise in volume to the next row, times the
//! distance above the row, divided by the rise in level, rounded down. Refused
//! are, in this order, 1 an image that is not usable, 10 no such table, 12 a
//! table that lacks a part, 13 levels or volumes that fall, 14 a level below row
//! 1 or above row 352. A refusal gives volume 0, and the image stays.

mod refused;
mod rows;
mod written;

pub use self::written::Writer;
use super::{serve, Change, Session, Step};
use crate::items::item;
use crate::tables::{bytes, Row, ROWS};

/// The first of the sixteen words, a word for each table.
const WORDS: usize = 17;

pub fn sessions() -> Vec<Session> {
    let mut sessions = vec![
        Session::new("quantity, an even table", even_table()),
        Session::new("quantity, each table", each_table()),
    ];
    sessions.extend(rows::sessions());
    sessions.extend(written::sessions());
    sessions.extend(refused::sessions());
    sessions
}

fn asked(rule: &'static str, table: u32, level: u32) -> Step {
    let input = [table.to_be_bytes(), level.to_be_bytes()].concat();
    Step::new(rule, 'A', &input)
}

/// A level, and the volume there or the number that it is refused with.
type Outcome = (u32, Result<u16, u8>);

/// Each of the levels asked of a table.
fn all_asked(rule: &'static str, table: u8, outcomes: &[Outcome]) -> Vec<Step> {
    let ask_one = |&(level, outcome)| {
        let step = asked(rule, u32::from(table), level);
        match outcome {
            Ok(volume) => step.answers(volume),
            Err(number) => step.refused(number),
        }
    };
    outcomes.iter().map(ask_one).collect()
}

/// The steps behind these changes.
fn behind(changes: &[Change], mut steps: Vec<Step>) -> Vec<Step> {
    steps[0].changed.splice(0..0, changes.iter().cloned());
    steps
}

/// The mask is read, and with it the image shown.
fn shown() -> Step {
    serve("the image stays", b":0132CD\r\n").replies(":013200CD")
}

/// All tables in the order in which they lie.
fn tables() -> impl Iterator<Item = u8> {
    (1..=8).chain(11..=18)
}

/// Where the word of a table's parts lies.
fn word_at(table: u8) -> usize {
    let place = tables().position(|each| each == table);
    WORDS + 2 * place.expect("a table")
}

fn set_word(table: u8, word: u16) -> Change {
    Change::Bytes(word_at(table), word.to_be_bytes().to_vec())
}

/// Rows of a table, from this one on, become these.
fn set_rows(table: u8, first: usize, rows: &[Row]) -> Change {
    let offset = item(59, table).expect("a table").offset;
    Change::Bytes(offset + 4 * (first - 1), bytes(rows))
}

fn set_row(table: u8, row: usize, level: u16, volume: u16) -> Change {
    set_rows(table, row, &[Row::new(level, volume)])
}

/// A whole table becomes these rows, and all its parts are held.
fn set_table(table: u8, rows: &[Row]) -> [Change; 2] {
    [set_rows(table, 1, rows), set_word(table, 2047)]
}

/// Row 1 has level 100 and volume 150, row 2 level 200 and volume 300, and so on
/// up to level 35,200 and volume 52,800.
fn even(row: usize) -> Row {
    Row::new(100 * row as u16, 150 * row as u16)
}

fn even_rows() -> Vec<Row> {
    (1..=ROWS).map(even).collect()
}

/// All that is not judged has this byte, all parts of all tables are held, and
/// the error tables are empty.
fn full_of(byte: u8) -> Vec<Change> {
    let mut changes = vec![
        Change::Fill(byte),
        Change::Bytes(0, b"IZK\x00\x02\x01".to_vec()),
        Change::Bytes(WORDS, [0x07, 0xFF].repeat(16)),
    ];
    changes.extend((0..8).map(|table| Change::Bytes(713 + 64 * table, vec![0])));
    changes
}

/// At each row, a little above it, halfway to the next and a little below that. A
/// distance of 1 adds 150 times 1 by 100, which is 1 and a half, and one of 99
/// adds 148 and a half; half of it is cut off.
fn even_table() -> Vec<Step> {
    let mut steps = written::whole(1, &even_rows());
    for row in 1..=352 {
        let (level, volume) = (100 * u32::from(row), 150 * row);
        let mut outcomes = vec![(level, Ok(volume))];
        if row < 352 {
            outcomes.extend([
                (level + 1, Ok(volume + 1)),
                (level + 50, Ok(volume + 75)),
                (level + 99, Ok(volume + 148)),
            ]);
        }
        steps.extend(all_asked("a row", 1, &outcomes));
    }
    steps.push(shown());
    for level in [0, 1, 99, 35_201, 52_800, 65_535, 65_536] {
        steps.push(asked("beyond", 1, level).refused(14));
    }
    // With the upper bits dropped these would be level 100, or row 352's.
    for level in [65_636, 65_536 + 35_200, (1 << 24) + 100, (1 << 31) + 100] {
        steps.push(asked("a wide level", 1, level).refused(14));
    }
    steps.push(asked("the widest level", 1, u32::MAX).refused(14));
    for table in [2, 8, 11, 12, 18] {
        steps.push(asked("another table", table, 100).refused(12));
    }
    steps.push(shown());
    steps
}

/// Every row of every table has level and volume 8,481, for all bytes are 21h,
/// but for row 1: that has level 8,381, and its volume is less by 100 times the
/// table's number.
fn each_differently() -> Vec<Change> {
    let mut changes = full_of(0x21);
    for table in tables() {
        changes.push(set_row(table, 1, 8381, 8481 - 100 * u16::from(table)));
    }
    changes
}

/// So the rise is 100 times the number over 100, and at a distance of 37 there
/// lack 63 times the number.
fn answered(table: u8) -> Vec<Step> {
    let number = u16::from(table);
    let outcomes = [
        (8380, Err(14)),
        (8381, Ok(8481 - 100 * number)),
        (8418, Ok(8481 - 63 * number)),
        (8481, Ok(8481)),
        (8482, Err(14)),
    ];
    all_asked("its own rows", table, &outcomes)
}

/// Each is spoiled and mended in turn, and the one 10 above or below is answered
/// all along.
fn each_table() -> Vec<Step> {
    let all: Vec<Step> = tables().flat_map(answered).collect();
    let mut steps = behind(&each_differently(), all);
    for (place, table) in tables().enumerate() {
        let beside = if table < 10 { table + 10 } else { table - 10 };
        let lacks = set_word(table, 2047 ^ 1 << (place % 11));
        let falls = match place % 2 {
            0 => set_row(table, 352, 8480, 8481),
            _ => set_row(table, 352, 8481, 8480),
        };
        let ask_one = |rule| asked(rule, u32::from(table), 8481);
        steps.push(ask_one("a part missing").after(&[lacks]).refused(12));
        steps.extend(answered(beside));
        let falls = [set_word(table, 2047), falls];
        steps.push(ask_one("a fall").after(&falls).refused(13));
        steps.extend(answered(beside));
        let mended = set_row(table, 352, 8481, 8481);
        steps.extend(behind(&[mended], answered(table)));
    }
    steps
}
