//! What is counted by table and by part.

use super::{Kind, Question};
use crate::tables::PART_ROWS;

/// The numbers that a table can get on a usable image.
pub const TABLE_NUMBERS: [u8; 4] = [0, 12, 13, 14];

/// What a question meets of a part.
pub struct OfPart {
    pub name: &'static str,
    /// How many of the eleven parts can have it: behind the last one there is no
    /// border.
    pub parts: usize,
    fits: fn(&Question, usize) -> bool,
}

pub const PARTS: [OfPart; 7] = [
    OfPart {
        name: "a row's level",
        parts: 11,
        fits: |question, part| {
            question.is_found(|found| part_of(found.number) == part && found.distance == 0)
        },
    },
    OfPart {
        name: "between two of its rows",
        parts: 11,
        fits: |question, part| {
            question.is_found(|found| {
                let within = found.number < PART_ROWS * part;
                part_of(found.number) == part && within && found.distance > 0
            })
        },
    },
    OfPart {
        name: "between its last row and the next",
        parts: 10,
        fits: |question, part| {
            question.is_found(|found| found.number == PART_ROWS * part && found.distance > 0)
        },
    },
    OfPart {
        name: "missing alone",
        parts: 11,
        fits: |question, part| question.number == 12 && question.word ^ 2047 == 1 << (part - 1),
    },
    OfPart {
        name: "held alone",
        parts: 11,
        fits: |question, part| question.number == 12 && question.word == 1 << (part - 1),
    },
    OfPart {
        name: "levels fall behind its last row",
        parts: 10,
        fits: |question, part| question.falls[0].contains(&(PART_ROWS * part)),
    },
    OfPart {
        name: "volumes fall behind its last row",
        parts: 10,
        fits: |question, part| question.falls[1].contains(&(PART_ROWS * part)),
    },
];

/// The part that a row is in, from its number.
fn part_of(row: usize) -> usize {
    (row - 1) / PART_ROWS + 1
}

pub fn kinds_of(question: &Question) -> Vec<Kind> {
    let mut kinds = Vec::new();
    if let Some(place) = question.place {
        kinds.push(Kind::Table(place, question.number));
    }
    for (place, row) in PARTS.iter().enumerate() {
        for part in 1..=row.parts {
            if (row.fits)(question, part) {
                kinds.push(Kind::Part(place, part));
            }
        }
    }
    kinds
}
