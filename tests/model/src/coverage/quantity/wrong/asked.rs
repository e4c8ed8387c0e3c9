//! Answerers that read the question otherwise, or judge the image otherwise.

use super::{named, word_at, Answerer, Wrong, RIGHT};
use crate::coverage::moves::{faults_of, Fault};
use crate::coverage::quantity::question::Question;
use crate::items::ITEMS;
use crate::quantity::place_of;

const fn place(place: fn(u32) -> Option<usize>) -> Answerer {
    Answerer { place, ..RIGHT }
}

const fn level(level: fn(u32) -> u32) -> Answerer {
    Answerer { level, ..RIGHT }
}

const fn usable(usable: fn(&Question) -> bool) -> Answerer {
    Answerer { usable, ..RIGHT }
}

const TABLES: [(&str, Answerer); 13] = [
    ("table cut to 5 bits", place(|table| place_of(table % 32))),
    ("table cut to 8 bits", place(|table| place_of(table % 256))),
    (
        "table cut to 16 bits",
        place(|table| place_of(table % 65_536)),
    ),
    (
        "table cut to 24 bits",
        place(|table| place_of(table % (1 << 24))),
    ),
    (
        "table cut to 31 bits",
        place(|table| place_of(table % (1 << 31))),
    ),
    (
        "table low byte first",
        place(|table| place_of(table.swap_bytes())),
    ),
    (
        "table at the place of its last digit",
        place(|table| place_of(table).map(|place| place % 8)),
    ),
    (
        "any number by its last digit",
        place(|table| place_of(table).or(place_of(table % 10))),
    ),
    (
        "tables numbered 1 to 16",
        place(|table| (1..=16).contains(&table).then(|| table as usize - 1)),
    ),
    (
        "tables numbered from 0",
        place(|table| place_of(table.wrapping_add(1))),
    ),
    (
        "9 and 10 taken for 8 and 11",
        place(|table| match table {
            9 => Some(7),
            10 => Some(8),
            _ => place_of(table),
        }),
    ),
    (
        "additional tables not known",
        place(|table| place_of(table).filter(|&place| place < 8)),
    ),
    (
        "main tables not known",
        place(|table| place_of(table).filter(|&place| place >= 8)),
    ),
];

const LEVELS: [(&str, Answerer); 9] = [
    ("level cut to 8 bits", level(|level| level % 256)),
    ("level cut to 15 bits", level(|level| level % 32_768)),
    ("level cut to 16 bits", level(|level| level % 65_536)),
    ("level cut to 24 bits", level(|level| level % (1 << 24))),
    ("level cut to 31 bits", level(|level| level % (1 << 31))),
    ("level up to 65,535", level(|level| level.min(65_535))),
    (
        "level low byte first",
        level(|level| match u16::try_from(level) {
            Ok(level) => level.swap_bytes().into(),
            Err(_) => level.swap_bytes(),
        }),
    ),
    ("level one less", level(|level| level.saturating_sub(1))),
    ("level one more", level(|level| level.saturating_add(1))),
];

const IMAGES: [(&str, Answerer); 11] = [
    ("image not judged", usable(|_| true)),
    ("length not judged", usable(|q| but_for(q, Fault::Source))),
    (
        "longer image taken",
        usable(|q| but_for(q, Fault::Source) && q.image.len() >= 23_817),
    ),
    ("mark not judged", usable(|q| but_for(q, Fault::Mark))),
    ("version not judged", usable(|q| but_for(q, Fault::Version))),
    (
        "version 1 taken as well",
        usable(|q| (RIGHT.usable)(q) || faults_of(q.image, 1, 23_753).is_empty()),
    ),
    ("address not judged", usable(|q| but_for(q, Fault::Address))),
    ("row counts not judged", usable(|q| but_for(q, Fault::Rows))),
    ("words not judged", usable(|q| but_for(q, Fault::Parts))),
    (
        "its own word alone judged",
        usable(|q| but_for(q, Fault::Parts) && q.word <= 2047),
    ),
    (
        "false signature refused",
        usable(|q| {
            let lies = |place: usize| ITEMS[place].is_false(q.image);
            (RIGHT.usable)(q) && !q.place.is_some_and(lies)
        }),
    ),
];

/// Where the words lie.
const WORDS: [(&str, Answerer); 4] = [
    (
        "word of the table 10 below",
        Answerer {
            word: |image, place| word_at(image, place % 8),
            ..RIGHT
        },
    ),
    (
        "word at the place of its number",
        Answerer {
            word: |image, place| word_at(image, usize::from(ITEMS[place].number) - 1),
            ..RIGHT
        },
    ),
    (
        "word of the next table",
        Answerer {
            word: |image, place| word_at(image, (place + 1) % 16),
            ..RIGHT
        },
    ),
    (
        "word low byte first",
        Answerer {
            word: |image, place| word_at(image, place).swap_bytes(),
            ..RIGHT
        },
    ),
];

/// Whether an image is usable but for this.
fn but_for(question: &Question, fault: Fault) -> bool {
    let faults = faults_of(question.image, 2, 23_817);
    faults.iter().all(|&each| each == fault)
}

pub fn wrong() -> Vec<Wrong> {
    let lists: [&[(&str, Answerer)]; 4] = [&TABLES, &LEVELS, &IMAGES, &WORDS];
    lists.into_iter().flat_map(named).collect()
}
