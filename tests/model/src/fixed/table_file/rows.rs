//! Files with good frames of one table, all parts once, and rows of every kind.

use super::{checked, even, frames_of, repeating};
use crate::fixed::Step;
use crate::tables::{Row, PART_ROWS, ROWS};

/// A file of table 5 with these rows, the parts from the last to the first.
fn with_rows(rule: &'static str, rows: &[Row]) -> Step {
    let mut frames = frames_of(1, 5, rows);
    frames.reverse();
    checked(rule, &frames.concat())
}

/// Table, address, and the row up to which the even table climbs.
const ACCEPTED: [(u8, u8, usize); 18] = [
    (1, 1, 1),
    (2, 59, 2),
    (3, 2, 3),
    (4, 128, 31),
    (5, 129, 32),
    (6, 255, 33),
    (7, 254, 34),
    (8, 127, 350),
    (11, 11, 351),
    (12, 12, 352),
    (13, 1, 320),
    (14, 58, 321),
    (15, 60, 64),
    (16, 10, 65),
    (17, 3, 100),
    (18, 18, 352),
    (8, 255, 352),
    (1, 17, 352),
];

/// Each table, with letters and orders of every kind.
pub fn accepted() -> Vec<Step> {
    let mut steps = Vec::new();
    for (place, (table, address, last)) in ACCEPTED.into_iter().enumerate() {
        let mut frames = frames_of(address, table, &repeating(even(), last));
        match place % 4 {
            0 => {}
            1 => frames.reverse(),
            2 => frames.rotate_left(1), // part 1 comes last
            _ => frames.swap(2, 9),
        }
        let mut file = frames.concat();
        match place % 3 {
            0 => {}
            1 => file.make_ascii_lowercase(),
            // Of two letters side by side one is small.
            _ => {
                for character in file.iter_mut().step_by(2) {
                    character.make_ascii_lowercase();
                }
            }
        }
        steps.push(checked("accepted", &file));
    }
    let mut frames = frames_of(1, 5, &even());
    frames.rotate_right(1); // part 11 comes first
    steps.push(checked("part 11 first", &frames.concat()));
    steps
}

/// Rows that are made from their numbers.
fn made(row: fn(u16) -> Row) -> Vec<Row> {
    (1..=352).map(row).collect()
}

/// All rows are good, with numbers at their limits.
pub fn limits() -> Vec<Step> {
    let zero_then_all = |volume| {
        let mut rows = vec![Row::new(65_535, 65_535); ROWS];
        rows[0] = Row::new(0, volume);
        rows
    };
    vec![
        with_rows("levels from 0 on", &made(|row| Row::new(row - 1, row - 1))),
        with_rows(
            "levels up to 65,535",
            &made(|row| Row::new(65_183 + row, 65_183 + row)),
        ),
        with_rows("steps of 1", &made(|row| Row::new(row, row))),
        with_rows("steps of 186", &made(|row| Row::new(186 * row, 186 * row))),
        with_rows("all volumes 0", &made(|row| Row::new(100 * row, 0))),
        with_rows(
            "all volumes 65,535",
            &made(|row| Row::new(100 * row, 65_535)),
        ),
        with_rows("all volumes alike", &made(|row| Row::new(100 * row, 777))),
        with_rows("all zeros", &[Row::new(0, 0); ROWS]),
        with_rows("all FFh", &[Row::new(65_535, 65_535); ROWS]),
        with_rows("all rows alike", &[Row::new(300, 200); ROWS]),
        with_rows("0 and then 65,535", &zero_then_all(0)),
        with_rows("0 and then 65,535, volumes 65,535", &zero_then_all(65_535)),
        with_rows(
            "one step past 32,767",
            &repeating(made(|row| Row::new(32_766 + row, 32_766 + row)), 2),
        ),
        with_rows(
            "one step past 255",
            &repeating(made(|row| Row::new(254 + row, 254 + row)), 2),
        ),
    ]
}

/// The even table with one row that is another, by its number.
fn with_row(rule: &'static str, number: usize, row: Row) -> Step {
    let mut rows = even();
    rows[number - 1] = row;
    with_rows(rule, &rows)
}

/// Steps from a row to the next: the first, some inside a part, some from a part
/// to the next, and the last.
const STEPS: [u16; 7] = [1, 2, 17, 32, 33, 320, 351];

/// Something is wrong at one step.
pub fn refused() -> Vec<Step> {
    let mut steps = Vec::new();
    for step in STEPS {
        let (next, level, volume) = (usize::from(step) + 1, 100 * step, 150 * step);
        steps.push(
            with_row("a level falls by 1", next, Row::new(level - 1, volume + 1)).refused(20),
        );
        steps.push(
            with_row("a volume falls by 1", next, Row::new(level + 1, volume - 1)).refused(20),
        );
        steps.push(with_row("a volume rises alone", next, Row::new(level, volume + 1)).refused(20));
        let repeated = with_row("a row repeated", next, Row::new(level, volume));
        // Behind row 351 nothing else comes.
        steps.push(if step == 351 {
            repeated
        } else {
            repeated.refused(20)
        });
        steps.push(with_row(
            "a level rises by 1",
            next,
            Row::new(level + 1, volume),
        ));
    }
    steps.push(with_row("row 1 above row 2", 1, Row::new(65_535, 0)).refused(20));
    steps.push(with_row("row 1 above row 2 in volume", 1, Row::new(0, 65_535)).refused(20));
    steps.push(
        with_row(
            "a rise behind a row repeated",
            351,
            Row::new(35_000, 52_500),
        )
        .refused(20),
    );
    steps.push(with_row("a rise behind a row repeated", 32, Row::new(3100, 4650)).refused(20));
    let mut rows = even();
    rows.reverse();
    steps.push(with_rows("all rows backwards", &rows).refused(20));
    let volumes_down = made(|row| Row::new(100 * row, 53_000 - 150 * row));
    steps.push(with_rows("all volumes backwards", &volumes_down).refused(20));
    for [one, other] in [[1, 2], [10, 11], [3, 7]] {
        steps.push(with_rows("two parts the other way round", &turned(one, other)).refused(20));
    }
    steps.push(in_order_in_the_file());
    steps.push(
        with_rows(
            "low byte first",
            &made(|row| Row::new(row.swap_bytes(), row)),
        )
        .refused(20),
    );
    steps
}

/// The even table with the rows of two parts the other way round.
fn turned(one: usize, other: usize) -> Vec<Row> {
    let mut rows = even();
    for row in 0..PART_ROWS {
        rows.swap(PART_ROWS * (one - 1) + row, PART_ROWS * (other - 1) + row);
    }
    rows
}

/// Part 11 has the first rows and comes first, part 1 has those behind it, and so
/// on: the rows climb from frame to frame, and not from part to part.
fn in_order_in_the_file() -> Step {
    let mut rows = even();
    rows.rotate_left(PART_ROWS);
    let mut frames = frames_of(1, 5, &rows);
    frames.rotate_right(1);
    checked("in order in the file alone", &frames.concat()).refused(20)
}

/// The even table up to row 100, then that row, and from one row on another.
fn from_row(rule: &'static str, number: usize, row: Row) -> Step {
    let mut rows = repeating(even(), 100);
    rows[number - 1..].fill(row);
    with_rows(rule, &rows)
}

/// The same with one such row, and row 100 again behind it.
fn at_row(rule: &'static str, number: usize, row: Row) -> Step {
    let mut rows = repeating(even(), 100);
    rows[number - 1] = row;
    with_rows(rule, &rows)
}

/// Rows behind row n, which is row 100 with level 10,000 and volume 15,000.
pub fn behind() -> Vec<Step> {
    let mut steps = Vec::new();
    for number in [102, 129, 352] {
        for (rule, level, volume) in [
            ("a higher level", 10_001, 15_000),
            ("a lower level", 9_999, 15_000),
            ("a higher volume", 10_000, 15_001),
            ("a lower volume", 10_000, 14_999),
            ("both higher", 10_001, 15_001),
            ("both lower", 9_999, 14_999),
            ("zeros", 0, 0),
            ("FFh", 65_535, 65_535),
        ] {
            steps.push(at_row(rule, number, Row::new(level, volume)).refused(20));
            steps.push(from_row(rule, number, Row::new(level, volume)).refused(20));
        }
    }
    // Right behind row 100 a rise is one more row that climbs.
    steps.push(from_row(
        "a rise right behind",
        101,
        Row::new(10_001, 15_000),
    ));
    steps.push(from_row("FFh right behind", 101, Row::new(65_535, 65_535)));
    steps.push(
        at_row(
            "a rise right behind, and back",
            101,
            Row::new(10_001, 15_000),
        )
        .refused(20),
    );
    steps.push(from_row("zeros right behind", 101, Row::new(0, 0)).refused(20));
    steps.push(from_row("a volume right behind", 101, Row::new(10_000, 15_001)).refused(20));
    steps.push(from_row("row 99 again", 101, Row::new(9_900, 14_850)).refused(20));
    let mut first = vec![Row::new(300, 200); ROWS];
    first[0] = Row::new(301, 200);
    steps.push(with_rows("row 1 alone above all others", &first).refused(20));
    first[0] = Row::new(299, 200);
    steps.push(with_rows("row 1 alone below all others", &first));
    first[0] = Row::new(300, 199);
    steps.push(with_rows("row 1 alone below in volume", &first).refused(20));
    let mut last = vec![Row::new(300, 200); ROWS];
    last[351] = Row::new(301, 200);
    steps.push(with_rows("row 352 alone above all others", &last).refused(20));
    steps
}
