//! Movers that judge too little, or what is not judged, or give a refusal
//! another number.

use super::{cleared, from, number, rows_end, takes, Wrong};
use crate::coverage::moves::{parts_held, row_counts, Fault, DOWN, EITHER};
use crate::items::{ITEMS, WORDS};
use crate::streams::{rung, CLOCK};

pub const WRONG: [Wrong; 46] = [
    ("all refused", takes(|_| false), EITHER),
    (
        "source's length not judged",
        takes(|call| call.only(Fault::Source)),
        EITHER,
    ),
    (
        "longer source taken",
        takes(|call| call.only(Fault::Source) && call.source.len() >= from(call).1),
        EITHER,
    ),
    (
        "mark not judged",
        takes(|call| call.only(Fault::Mark)),
        EITHER,
    ),
    (
        "first letter not judged",
        takes(|call| call.only(Fault::Mark) && call.source[1..3] == *b"ZK"),
        EITHER,
    ),
    (
        "second letter not judged",
        takes(|call| call.only(Fault::Mark) && [call.source[0], call.source[2]] == *b"IK"),
        EITHER,
    ),
    (
        "third letter not judged",
        takes(|call| call.only(Fault::Mark) && call.source[..2] == *b"IZ"),
        EITHER,
    ),
    (
        "small letters taken",
        takes(|call| call.only(Fault::Mark) && call.source[..3].eq_ignore_ascii_case(b"IZK")),
        EITHER,
    ),
    (
        "version not judged",
        takes(|call| call.only(Fault::Version)),
        EITHER,
    ),
    (
        "version's high byte not judged",
        takes(|call| call.only(Fault::Version) && call.source[4] == from(call).0),
        EITHER,
    ),
    (
        "version's low byte not judged",
        takes(|call| call.only(Fault::Version) && call.source[3] == 0),
        EITHER,
    ),
    (
        "lower version taken",
        takes(|call| call.only(Fault::Version) && call.source[3..5] <= [0, from(call).0][..]),
        EITHER,
    ),
    (
        "other version taken as well",
        takes(|call| {
            let other = call.is_other() && !call.faults.contains(&Fault::Target);
            other || call.faults.is_empty()
        }),
        EITHER,
    ),
    (
        "other move done instead",
        takes(|call| call.is_for_other() || call.faults.is_empty()),
        EITHER,
    ),
    (
        "address not judged",
        takes(|call| call.only(Fault::Address)),
        EITHER,
    ),
    (
        "row counts not judged",
        takes(|call| call.only(Fault::Rows)),
        EITHER,
    ),
    (
        "22 rows taken",
        takes(|call| call.only(Fault::Rows) && row_counts(call.source).all(|count| count <= 22)),
        EITHER,
    ),
    (
        "21 rows refused",
        takes(|call| call.faults.is_empty() && row_counts(call.source).all(|count| count < 21)),
        EITHER,
    ),
    (
        "row count as signed",
        takes(|call| {
            call.only(Fault::Rows) && row_counts(call.source).all(|count| count as i8 <= 21)
        }),
        EITHER,
    ),
    (
        "first error table not judged",
        takes(|call| {
            call.only(Fault::Rows) && row_counts(call.source).skip(1).all(|count| count <= 21)
        }),
        EITHER,
    ),
    (
        "last error table not judged",
        takes(|call| {
            call.only(Fault::Rows) && row_counts(call.source).take(7).all(|count| count <= 21)
        }),
        EITHER,
    ),
    (
        "parts held not judged",
        takes(|call| call.only(Fault::Parts)),
        EITHER,
    ),
    (
        "2048 taken",
        takes(|call| call.only(Fault::Parts) && parts_held(call.source).all(|word| word <= 2048)),
        EITHER,
    ),
    (
        "2047 refused",
        takes(|call| call.faults.is_empty() && parts_held(call.source).all(|word| word < 2047)),
        EITHER,
    ),
    (
        "bits above the twelfth not judged",
        takes(|call| {
            call.only(Fault::Parts) && parts_held(call.source).all(|word| word & 0x0800 == 0)
        }),
        EITHER,
    ),
    (
        "first table not judged",
        takes(|call| {
            call.only(Fault::Parts) && parts_held(call.source).skip(1).all(|word| word <= 2047)
        }),
        EITHER,
    ),
    (
        "last table not judged",
        takes(|call| {
            call.only(Fault::Parts) && parts_held(call.source).take(15).all(|word| word <= 2047)
        }),
        EITHER,
    ),
    (
        "additional tables not judged",
        takes(|call| {
            call.only(Fault::Parts) && parts_held(call.source).take(8).all(|word| word <= 2047)
        }),
        EITHER,
    ),
    (
        "target's length not judged",
        takes(|call| call.only(Fault::Target)),
        EITHER,
    ),
    (
        "longer target taken",
        takes(|call| call.only(Fault::Target) && call.target.len() >= from(call).2),
        EITHER,
    ),
    (
        "target as long as the source taken",
        takes(|call| {
            let alike = call.target.len() == call.source.len();
            call.faults.is_empty() || call.only(Fault::Target) && alike
        }),
        EITHER,
    ),
    (
        "false words refused",
        takes(|call| call.faults.is_empty() && (call.up || false_words(call.source) == 0)),
        DOWN,
    ),
    (
        "all words false refused",
        takes(|call| call.faults.is_empty() && (call.up || false_words(call.source) < 32)),
        DOWN,
    ),
    (
        "words 0 refused",
        takes(|call| call.faults.is_empty() && (call.up || call.source[WORDS] != [0; 64])),
        DOWN,
    ),
    (
        "sum past 65,535 refused",
        takes(|call| {
            let past = |item| call.sum(item) > 65_535;
            call.faults.is_empty() && !ITEMS.iter().any(past)
        }),
        EITHER,
    ),
    (
        "target not empty refused",
        takes(|call| call.faults.is_empty() && call.target.iter().all(|&byte| byte == 0)),
        EITHER,
    ),
    (
        "target with an image refused",
        takes(|call| call.faults.is_empty() && !call.target.starts_with(b"IZK")),
        EITHER,
    ),
    (
        "mode judged",
        takes(|call| call.faults.is_empty() && matches!(call.source[7], 0x00 | 0xFF)),
        EITHER,
    ),
    (
        "clock judged",
        takes(|call| call.faults.is_empty() && is_clock(&call.source[8..17])),
        EITHER,
    ),
    (
        "gas composition judged",
        takes(|call| call.faults.is_empty() && constants(call.source).all(|cell| cell[3] <= 13)),
        EITHER,
    ),
    (
        "reserve judged",
        takes(|call| {
            let clear = |cell: &[u8]| cleared(cell) == cell;
            call.faults.is_empty() && constants(call.source).all(clear)
        }),
        EITHER,
    ),
    (
        "temperatures judged",
        takes(|call| call.faults.is_empty() && errors(call.source).all(rise)),
        EITHER,
    ),
    (
        "bytes behind the rows judged",
        takes(|call| {
            let behind = |table: &[u8]| table[rows_end(table)..].iter().any(|&byte| byte > 0);
            call.faults.is_empty() && !errors(call.source).any(behind)
        }),
        EITHER,
    ),
    (
        "target refused 2",
        number(|call| if call.only(Fault::Target) { 2 } else { 1 }),
        EITHER,
    ),
    (
        "address refused 11",
        number(|call| if call.only(Fault::Address) { 11 } else { 1 }),
        EITHER,
    ),
    (
        "parts and rows refused 10",
        number(|call| {
            let ten = call.only(Fault::Parts) || call.only(Fault::Rows);
            if ten {
                10
            } else {
                1
            }
        }),
        EITHER,
    ),
];

fn false_words(image: &[u8]) -> usize {
    let wrong = ITEMS.iter().filter(|item| item.is_false(image));
    wrong.count()
}

/// Whether a clock is one that 77 writes, or that of a fresh image.
fn is_clock(clock: &[u8]) -> bool {
    let mut limits = clock.iter().zip(CLOCK);
    let written = limits.all(|(byte, (low, high))| (low..=high).contains(byte));
    written || clock == [0; 9]
}

/// The constants, and then the error tables.
fn constants(image: &[u8]) -> impl Iterator<Item = &[u8]> {
    image[49..713].chunks_exact(83)
}

fn errors(image: &[u8]) -> impl Iterator<Item = &[u8]> {
    image[713..1225].chunks_exact(64)
}

/// Whether the temperatures of an error table rise (document 02, wish 5).
fn rise(table: &[u8]) -> bool {
    let rows = table[1..rows_end(table)].chunks_exact(3);
    rows.map(|row| rung(row[0]))
        .is_sorted_by(|earlier, later| earlier < later)
}
