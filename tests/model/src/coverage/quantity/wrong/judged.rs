//! Answerers that judge the table or the level otherwise.

use super::{any_step, bytes_at, falls, first, found, last, named};
use super::{Answerer, Meant, Wrong, RIGHT};
use crate::tables::{rows, Row};

const fn whole(whole: fn(&Meant) -> bool) -> Answerer {
    Answerer { whole, ..RIGHT }
}

const fn judges(falls: fn(&Meant) -> bool) -> Answerer {
    Answerer { falls, ..RIGHT }
}

const fn has_level(has_level: fn(&Meant) -> bool) -> Answerer {
    Answerer { has_level, ..RIGHT }
}

const PARTS: [(&str, Answerer); 7] = [
    ("parts not asked", whole(|_| true)),
    ("one part is enough", whole(|m| m.word != 0)),
    ("ten parts are enough", whole(|m| m.word.count_ones() >= 10)),
    (
        "first and last part are enough",
        whole(|m| m.word & 1025 == 1025),
    ),
    ("bits from 1 to 11 asked", whole(|m| m.word & 4094 == 4094)),
    (
        "the part of the row alone asked",
        whole(|m| m.word & 1 << (found(m) / 32) != 0),
    ),
    (
        "all tables asked",
        whole(|m| {
            m.question.image[17..49]
                .chunks(2)
                .all(|word| word == [7, 255])
        }),
    ),
];

const FALLS: [(&str, Answerer); 27] = [
    ("falls not judged", judges(|_| false)),
    (
        "levels alone judged",
        judges(|m| any_step(m, |_, row, next| next.level < row.level)),
    ),
    (
        "volumes alone judged",
        judges(|m| any_step(m, |_, row, next| next.volume < row.volume)),
    ),
    (
        "a fall where both fall",
        judges(|m| {
            any_step(m, |_, row, next| {
                next.level < row.level && next.volume < row.volume
            })
        }),
    ),
    (
        "rows out of order as a whole",
        judges(|m| any_step(m, |_, row, next| next.bytes() < row.bytes())),
    ),
    (
        "levels must rise",
        judges(|m| {
            any_step(m, |_, row, next| {
                next.level <= row.level || falls(row, next)
            })
        }),
    ),
    (
        "volumes must rise",
        judges(|m| {
            any_step(m, |_, row, next| {
                next.volume <= row.volume || falls(row, next)
            })
        }),
    ),
    (
        "levels or volumes must rise",
        judges(|m| any_step(m, |_, row, next| next == row || falls(row, next))),
    ),
    (
        "levels must rise where volumes do",
        judges(|m| {
            any_step(m, |_, row, next| {
                falls(row, next) || next.level == row.level && next.volume > row.volume
            })
        }),
    ),
    (
        "levels must rise up to a padded tail",
        judges(|m| {
            let tail = m
                .rows
                .iter()
                .rev()
                .take_while(|row| m.rows.last() == Some(row));
            let before = m.rows.len() - tail.count();
            any_step(m, |step, row, next| {
                falls(row, next) || step <= before && next.level == row.level
            })
        }),
    ),
    (
        "no padded tail",
        judges(|m| {
            any_step(m, |step, row, next| {
                falls(row, next) || step == 351 && row == next
            })
        }),
    ),
    (
        "fall of 1 let pass",
        judges(|m| any_step(m, |_, row, next| falls(row, up_by_1(next)))),
    ),
    (
        "levels as signed",
        judges(|m| any_step(m, |_, row, next| (next.level as i16) < row.level as i16)),
    ),
    (
        "volumes as signed",
        judges(|m| any_step(m, |_, row, next| (next.volume as i16) < row.volume as i16)),
    ),
    (
        "high bytes alone judged",
        judges(|m| any_step(m, |_, row, next| falls(high_bytes(row), high_bytes(next)))),
    ),
    (
        "low bytes alone judged",
        judges(|m| any_step(m, |_, row, next| falls(low_bytes(row), low_bytes(next)))),
    ),
    (
        "row 352 against row 1 alone",
        judges(|m| falls(m.rows[0], m.rows[m.rows.len() - 1])),
    ),
    (
        "each row against row 1 alone",
        judges(|m| any_step(m, |_, _, next| falls(m.rows[0], next))),
    ),
    (
        "steps within parts alone judged",
        judges(|m| any_step(m, |step, row, next| step % 32 != 0 && falls(row, next))),
    ),
    (
        "steps between parts alone judged",
        judges(|m| any_step(m, |step, row, next| step % 32 == 0 && falls(row, next))),
    ),
    (
        "every second step judged",
        judges(|m| any_step(m, |step, row, next| step % 2 == 1 && falls(row, next))),
    ),
    (
        "the other steps judged",
        judges(|m| any_step(m, |step, row, next| step % 2 == 0 && falls(row, next))),
    ),
    (
        "steps up to the row asked alone judged",
        judges(|m| {
            let above = m.rows.iter().position(|row| u32::from(row.level) > m.level);
            let above = above.unwrap_or(m.rows.len());
            any_step(m, |step, row, next| step <= above && falls(row, next))
        }),
    ),
    (
        "steps from the row asked on alone judged",
        judges(|m| {
            let before = found(m);
            any_step(m, |step, row, next| step > before && falls(row, next))
        }),
    ),
    (
        "the step asked alone judged",
        judges(|m| {
            let before = found(m);
            any_step(m, |step, row, next| step == before + 1 && falls(row, next))
        }),
    ),
    (
        "256 steps judged",
        judges(|m| any_step(m, |step, row, next| step < 256 && falls(row, next))),
    ),
    (
        "row 353 judged",
        judges(|m| (RIGHT.falls)(m) || falls_behind(m)),
    ),
];

fn up_by_1(row: Row) -> Row {
    Row::new(row.level.saturating_add(1), row.volume.saturating_add(1))
}

fn high_bytes(row: Row) -> Row {
    Row::new(row.level >> 8, row.volume >> 8)
}

fn low_bytes(row: Row) -> Row {
    Row::new(row.level % 256, row.volume % 256)
}

/// Whether the row that lies behind the last one is below it.
fn falls_behind(meant: &Meant) -> bool {
    let place = meant.question.place.unwrap_or(0);
    let more = rows(&bytes_at(meant.question.image, place, 1412));
    more[351..].windows(2).any(|pair| falls(pair[0], pair[1]))
}

const LEVELS: [(&str, Answerer); 8] = [
    ("below row 1 its volume", has_level(|m| m.level <= last(m))),
    (
        "above row 352 its volume",
        has_level(|m| first(m) <= m.level),
    ),
    ("14 above 65,535 alone", has_level(|m| m.level <= 65_535)),
    (
        "row 1's level refused",
        has_level(|m| first(m) < m.level && m.level <= last(m)),
    ),
    (
        "row 352's level refused",
        has_level(|m| first(m) <= m.level && m.level < last(m)),
    ),
    (
        "above row 351 refused",
        has_level(|m| (RIGHT.has_level)(m) && m.level <= m.rows[350].level.into()),
    ),
    (
        "below row 2 refused",
        has_level(|m| (RIGHT.has_level)(m) && m.level >= m.rows[1].level.into()),
    ),
    (
        "level 0 refused",
        has_level(|m| (RIGHT.has_level)(m) && m.level > 0),
    ),
];

/// The first step, the last one, and those between parts.
const STEPS: [usize; 12] = [1, 32, 64, 96, 128, 160, 192, 224, 256, 288, 320, 351];

/// One for each part that is not asked, and for some of the steps.
fn of_several() -> Vec<Wrong> {
    let mut wrong = Vec::new();
    for of in 1..=11 {
        let whole = |m: &Meant| m.word | 1 << (m.of - 1) == 2047;
        wrong.push((
            format!("part {of} not asked"),
            Answerer { whole, of, ..RIGHT },
        ));
    }
    for of in STEPS {
        let falls = |m: &Meant| any_step(m, |step, row, next| step != m.of && falls(row, next));
        wrong.push((
            format!("step {of} not judged"),
            Answerer { falls, of, ..RIGHT },
        ));
    }
    wrong
}

pub fn wrong() -> Vec<Wrong> {
    let lists: [&[(&str, Answerer)]; 3] = [&PARTS, &FALLS, &LEVELS];
    let mut wrong: Vec<Wrong> = lists.into_iter().flat_map(named).collect();
    wrong.extend(of_several());
    wrong
}
