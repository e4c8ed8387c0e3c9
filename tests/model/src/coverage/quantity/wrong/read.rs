//! Answerers that read the rows otherwise, or not all of them, or more.

use std::borrow::Cow;

use super::{bytes_at, named, rows_at, Answerer, Wrong, RIGHT};
use crate::coverage::quantity::question::Question;
use crate::tables::{rows, Row};

const fn reads(rows: for<'a> fn(&'a Question, usize) -> Cow<'a, [Row]>) -> Answerer {
    Answerer { rows, ..RIGHT }
}

/// The rows as they should be read, each or all of them changed.
fn changed(
    question: &Question,
    place: usize,
    change: impl Fn(&mut Vec<Row>),
) -> Cow<'static, [Row]> {
    let mut rows = rows_at(question, place).into_owned();
    if !rows.is_empty() {
        change(&mut rows);
    }
    Cow::Owned(rows)
}

fn each(question: &Question, place: usize, row: fn(Row) -> Row) -> Cow<'static, [Row]> {
    changed(question, place, |rows| {
        rows.iter_mut().for_each(|each| *each = row(*each));
    })
}

/// The rows of the parts in this order.
fn in_order(question: &Question, place: usize, order: [usize; 11]) -> Cow<'static, [Row]> {
    changed(question, place, |rows| {
        let parts: Vec<Row> = order
            .iter()
            .flat_map(|part| rows[32 * (part - 1)..32 * part].to_vec())
            .collect();
        *rows = parts;
    })
}

/// The bytes of the table in runs of so many, each with its levels first.
fn levels_first(question: &Question, place: usize, length: usize) -> Cow<'static, [Row]> {
    let bytes = bytes_at(question.image, place, 1408);
    let mut sorted = Vec::new();
    for run in bytes.chunks_exact(length) {
        let (levels, volumes) = run.split_at(length / 2);
        for (level, volume) in levels.chunks_exact(2).zip(volumes.chunks_exact(2)) {
            sorted.extend([level, volume].concat());
        }
    }
    Cow::Owned(rows(&sorted))
}

/// The rows, and one that lies behind them.
fn one_more(question: &Question, place: usize) -> Vec<Row> {
    rows(&bytes_at(question.image, place, 1412))
}

const NUMBERS: [(&str, Answerer); 9] = [
    (
        "level and volume swapped",
        reads(|q, place| each(q, place, |row| Row::new(row.volume, row.level))),
    ),
    (
        "rows low byte first",
        reads(|q, place| {
            each(q, place, |row| {
                Row::new(row.level.swap_bytes(), row.volume.swap_bytes())
            })
        }),
    ),
    (
        "levels low byte first",
        reads(|q, place| each(q, place, |row| Row::new(row.level.swap_bytes(), row.volume))),
    ),
    (
        "volumes low byte first",
        reads(|q, place| each(q, place, |row| Row::new(row.level, row.volume.swap_bytes()))),
    ),
    (
        "levels of 15 bits",
        reads(|q, place| each(q, place, |row| Row::new(row.level % 32_768, row.volume))),
    ),
    (
        "volumes of 15 bits",
        reads(|q, place| each(q, place, |row| Row::new(row.level, row.volume % 32_768))),
    ),
    (
        "volumes of 8 bits",
        reads(|q, place| each(q, place, |row| Row::new(row.level, row.volume % 256))),
    ),
    (
        "levels first in each part",
        reads(|q, place| levels_first(q, place, 128)),
    ),
    (
        "levels first in the table",
        reads(|q, place| levels_first(q, place, 1408)),
    ),
];

const PLACES: [(&str, Answerer); 7] = [
    (
        "rows of the table 10 below",
        reads(|q, place| rows_at(q, place % 8)),
    ),
    (
        "rows of the next table",
        reads(|q, place| rows_at(q, (place + 1) % 16)),
    ),
    (
        "rows from the second on",
        reads(|q, place| one_more(q, place).into_iter().skip(1).collect()),
    ),
    (
        "last part first",
        reads(|q, place| in_order(q, place, [11, 1, 2, 3, 4, 5, 6, 7, 8, 9, 10])),
    ),
    (
        "parts backwards",
        reads(|q, place| in_order(q, place, [11, 10, 9, 8, 7, 6, 5, 4, 3, 2, 1])),
    ),
    (
        "parts as text is in order",
        reads(|q, place| in_order(q, place, [1, 10, 11, 2, 3, 4, 5, 6, 7, 8, 9])),
    ),
    (
        "parts 6 and 7 the other way round",
        reads(|q, place| in_order(q, place, [1, 2, 3, 4, 5, 7, 6, 8, 9, 10, 11])),
    ),
];

const COUNTS: [(&str, Answerer); 10] = [
    (
        "row 353 read",
        reads(|q, place| Cow::Owned(one_more(q, place))),
    ),
    (
        "row 352 not counted",
        reads(|q, place| changed(q, place, |rows| rows.truncate(351))),
    ),
    (
        "row 1 not counted",
        reads(|q, place| changed(q, place, |rows| keep(rows, |at| at > 0))),
    ),
    (
        "256 rows read",
        reads(|q, place| changed(q, place, |rows| rows.truncate(256))),
    ),
    (
        "part 11 not read",
        reads(|q, place| changed(q, place, |rows| rows.truncate(320))),
    ),
    (
        "rows of zeros at the end left out",
        reads(|q, place| without_end(q, place, Row::new(0, 0))),
    ),
    (
        "rows of FFh at the end left out",
        reads(|q, place| without_end(q, place, Row::new(65_535, 65_535))),
    ),
    (
        "first of several rows of a level kept",
        reads(|q, place| changed(q, place, |rows| rows.dedup_by_key(|row| row.level))),
    ),
    (
        "every second row read",
        reads(|q, place| changed(q, place, |rows| keep(rows, |at| at % 2 == 0))),
    ),
    (
        "first row of each part left out",
        reads(|q, place| changed(q, place, |rows| keep(rows, |at| at % 32 != 0 || at == 0))),
    ),
];

/// Keeps the rows at some places.
fn keep(rows: &mut Vec<Row>, kept: fn(usize) -> bool) {
    let mut places = 0..;
    rows.retain(|_| places.next().is_some_and(kept));
}

/// Without the rows at the end that are like this, but for row 1.
fn without_end(question: &Question, place: usize, row: Row) -> Cow<'static, [Row]> {
    changed(question, place, |rows| {
        while rows.len() > 1 && rows.last() == Some(&row) {
            rows.pop();
        }
    })
}

pub fn wrong() -> Vec<Wrong> {
    let lists: [&[(&str, Answerer)]; 3] = [&NUMBERS, &PLACES, &COUNTS];
    lists.into_iter().flat_map(named).collect()
}
