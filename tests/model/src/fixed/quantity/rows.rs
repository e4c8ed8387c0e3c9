//! Rows of every kind: several of one level, of one volume, alike up to the end,
//! at the highest and the lowest values, and rises that leave a remainder.

use super::{all_asked, asked, behind, even, even_rows, set_row, set_rows, set_table, shown};
use super::{full_of, tables, written, Change, Outcome, Session, Step};
use crate::tables::{Row, ROWS};

pub fn sessions() -> Vec<Session> {
    vec![
        Session::new("quantity, rows of one level", rows_of_one_level()),
        Session::new("quantity, equal levels at every step", equal_levels()),
        Session::new("quantity, equal volumes at every step", equal_volumes()),
        Session::new("quantity, padded tails", padded_tails()),
        Session::new("quantity, highest and lowest", highest_and_lowest()),
        Session::new("quantity, steep steps", steep_steps()),
        Session::new("quantity, rounded down", rounded_down()),
        Session::new("quantity, wide products", wide_products()),
        Session::new("quantity, all bytes alike", all_bytes_alike()),
    ]
}

/// Rows that get another level, and then the even ones again, in table 12.
fn with_level(level: u16, rows: [usize; 2], outcomes: &[Outcome]) -> Vec<Step> {
    let [first, last] = rows;
    let volume = |row| even(row).volume;
    let run: Vec<Row> = (first..=last)
        .map(|row| Row::new(level, volume(row)))
        .collect();
    let steps = all_asked("several rows of a level", 12, outcomes);
    let mut steps = behind(&[set_rows(12, first, &run)], steps);
    let again: Vec<Row> = (first..=last).map(even).collect();
    let as_before = asked("as before", 12, 17_650).answers(26_475);
    steps.push(as_before.after(&[set_rows(12, first, &again)]));
    steps
}

/// A level, the first and the last of the rows that get it, and what is asked.
type Run = (u16, [usize; 2], &'static [Outcome]);

const RUNS: [Run; 9] = [
    // From row 3, at level 200 and volume 450, there are 150 over 200.
    (
        200,
        [2, 3],
        &[
            (199, Ok(298)),
            (200, Ok(450)),
            (201, Ok(450)),
            (399, Ok(599)),
        ],
    ),
    // From row 20, at 1,000 and 3,000, there are 150 over 1,100.
    (
        1000,
        [10, 20],
        &[(999, Ok(1498)), (1000, Ok(3000)), (1001, Ok(3000))],
    ),
    (
        1000,
        [10, 20],
        &[(1550, Ok(3075)), (2099, Ok(3149)), (2100, Ok(3150))],
    ),
    // The first rows.
    (
        200,
        [1, 2],
        &[(199, Err(14)), (200, Ok(300)), (250, Ok(375))],
    ),
    (
        300,
        [1, 3],
        &[(299, Err(14)), (300, Ok(450)), (350, Ok(525))],
    ),
    // The last rows.
    (
        35_100,
        [351, 352],
        &[
            (35_099, Ok(52_648)),
            (35_100, Ok(52_800)),
            (35_101, Err(14)),
        ],
    ),
    (
        35_000,
        [350, 352],
        &[
            (34_999, Ok(52_498)),
            (35_000, Ok(52_800)),
            (35_001, Err(14)),
        ],
    ),
    // Over the border of two parts, and over two borders.
    (
        3200,
        [32, 33],
        &[(3199, Ok(4798)), (3200, Ok(4950)), (3300, Ok(5025))],
    ),
    (
        3000,
        [30, 70],
        &[(2999, Ok(4498)), (3000, Ok(10_500)), (5050, Ok(10_575))],
    ),
];

/// The last of them counts, at its level and above it. If all rows have one level,
/// it is row 1's and row 352's.
fn rows_of_one_level() -> Vec<Step> {
    let mut steps = written::whole(12, &even_rows());
    for (level, rows, outcomes) in RUNS {
        steps.extend(with_level(level, rows, outcomes));
    }
    let all = [(16_999, Err(14)), (17_000, Ok(52_800)), (17_001, Err(14))];
    steps.extend(with_level(17_000, [1, 352], &all));
    steps.push(shown());
    steps
}

/// Row 2 at row 1's level, then row 3 at row 2's, and so on. At that level the
/// volume is that of the second of them.
fn equal_levels() -> Vec<Step> {
    let mut steps = written::whole(3, &even_rows());
    for row in 1..=351u16 {
        let level = 100 * row;
        let alike = set_row(3, usize::from(row) + 1, level, 150 * (row + 1));
        let again = set_rows(3, usize::from(row), &[even(usize::from(row))]);
        let step = asked("two rows of a level", 3, u32::from(level));
        steps.push(step.after(&[again, alike]).answers(150 * (row + 1)));
    }
    steps
}

/// The same with volumes, which do not rise there.
fn equal_volumes() -> Vec<Step> {
    let mut steps = written::whole(14, &even_rows());
    for row in 1..=351u16 {
        let alike = set_row(14, usize::from(row) + 1, 100 * (row + 1), 150 * row);
        let again = set_rows(14, usize::from(row), &[even(usize::from(row))]);
        let step = asked("two rows of a volume", 14, 100 * u32::from(row) + 50);
        steps.push(step.after(&[again, alike]).answers(150 * row));
    }
    steps
}

/// Even rows up to this one, and all behind it equal to it.
fn padded(last: usize) -> Vec<Row> {
    (1..=ROWS).map(|row| even(row.min(last))).collect()
}

fn padded_tails() -> Vec<Step> {
    let mut steps = Vec::new();
    let mut tail = |last, outcomes: &[Outcome]| {
        let asked = all_asked("the last row repeated", 18, outcomes);
        steps.extend(behind(&set_table(18, &padded(last)), asked));
    };
    tail(1, &[(99, Err(14)), (100, Ok(150)), (101, Err(14))]);
    tail(2, &[(199, Ok(298)), (200, Ok(300)), (201, Err(14))]);
    tail(5, &[(499, Ok(748)), (500, Ok(750)), (501, Err(14))]);
    tail(32, &[(3199, Ok(4798)), (3200, Ok(4800)), (3201, Err(14))]);
    tail(33, &[(3201, Ok(4801)), (3300, Ok(4950)), (3301, Err(14))]);
    tail(
        351,
        &[
            (35_099, Ok(52_648)),
            (35_100, Ok(52_650)),
            (35_101, Err(14)),
        ],
    );
    steps.push(shown());
    steps
}

/// Where one rise is tried: a table and the row before the rise. Tables 7, 8 and
/// 18 have zeros up to that row and FFh behind it.
const PLACES: [(u8, usize); 3] = [(7, 1), (8, 32), (18, 351)];

fn places() -> Vec<Change> {
    let mut changes = full_of(0xFF);
    for (table, row) in PLACES {
        changes.push(set_rows(table, 1, &vec![Row::new(0, 0); row]));
    }
    changes
}

/// A rise from a row to the next in the first step, at the border of two parts
/// and in the last step: what is asked between, and then the rows themselves.
fn one_rise(low: Row, high: Row, between: &[Outcome]) -> Vec<Step> {
    let mut steps = Vec::new();
    for (table, row) in PLACES {
        let mut outcomes = between.to_vec();
        if low.level < high.level {
            outcomes.push((low.level.into(), Ok(low.volume)));
        }
        if row == 351 {
            outcomes.push((u32::from(high.level) + 1, Err(14)));
        }
        // Else rows behind it have that level too.
        if row == 351 || high.level < 65_535 {
            outcomes.push((high.level.into(), Ok(high.volume)));
        }
        if row == 1 && low.level > 0 {
            outcomes.push((u32::from(low.level) - 1, Err(14)));
        }
        let asked = all_asked("one rise", table, &outcomes);
        steps.extend(behind(&[set_rows(table, row, &[low, high])], asked));
    }
    steps
}

/// Over a rise in level of 65,535 the volume rises as much, one less, one more
/// over one less, by 1 and by nothing.
fn highest_and_lowest() -> Vec<Step> {
    let (low, all) = (Row::new(0, 0), 65_535);
    let levels = [1, 2, 32_767, 32_768, 65_534];
    let as_much: Vec<Outcome> = levels.map(|level| (level, Ok(level as u16))).to_vec();
    let mut steps = one_rise(low, Row::new(all, all), &as_much);
    // 65,534 times 65,534 is 65,535 times 65,533, and 1.
    let one_less = [(1, Ok(0)), (2, Ok(1)), (65_534, Ok(65_533))];
    steps.extend(one_rise(low, Row::new(all, all - 1), &one_less));
    // 65,535 times 32,767 by 65,534 is 32,767 and a half.
    let one_more = [(1, Ok(1)), (32_767, Ok(32_767)), (65_533, Ok(65_533))];
    steps.extend(one_rise(low, Row::new(all - 1, all), &one_more));
    let by_1 = [(1, Ok(7)), (65_534, Ok(7))];
    steps.extend(one_rise(Row::new(0, 7), Row::new(all, 8), &by_1));
    let by_none = [(1, Ok(9)), (65_534, Ok(9)), (65_536, Err(14))];
    steps.extend(one_rise(Row::new(0, 9), Row::new(all, 9), &by_none));
    let at_most = [(101, Ok(all)), (199, Ok(all))];
    steps.extend(one_rise(Row::new(100, all), Row::new(200, all), &at_most));
    behind(&places(), steps)
}

/// A rise in volume of 65,535 over a rise in level of 0 to 4.
fn steep_steps() -> Vec<Step> {
    let low = Row::new(1000, 0);
    let over = |rise: u16, between: &[Outcome]| {
        let high = Row::new(1000 + rise, 65_535);
        one_rise(low, high, between)
    };
    let mut steps = over(0, &[]);
    steps.extend(over(1, &[]));
    // A half is 32,767 and a half; thirds are 21,845 and 43,690.
    steps.extend(over(2, &[(1001, Ok(32_767))]));
    steps.extend(over(3, &[(1001, Ok(21_845)), (1002, Ok(43_690))]));
    // Quarters are 16,383 and 3/4, 32,767 and 1/2, 49,151 and 1/4.
    let quarters = [(1001, Ok(16_383)), (1002, Ok(32_767)), (1003, Ok(49_151))];
    steps.extend(over(4, &quarters));
    behind(&places(), steps)
}

/// A rise in volume, and what it adds at distances of 1 to 6 of 7.
const SEVENTHS: [(u16, [u16; 6]); 8] = [
    (0, [0, 0, 0, 0, 0, 0]),
    (1, [0, 0, 0, 0, 0, 0]),
    (3, [0, 0, 1, 1, 2, 2]),
    (6, [0, 1, 2, 3, 4, 5]),
    (7, [1, 2, 3, 4, 5, 6]),
    (8, [1, 2, 3, 4, 5, 6]),
    (13, [1, 3, 5, 7, 9, 11]),
    (65_000, [9285, 18_571, 27_857, 37_142, 46_428, 55_714]),
];

/// Sevenths never end in a half, and what is left of them is on either side of
/// one.
fn rounded_down() -> Vec<Step> {
    let mut steps = Vec::new();
    for (rise, adds) in SEVENTHS {
        for base in [0, 100, 535] {
            let levels = (11..).zip(adds);
            let between: Vec<Outcome> =
                levels.map(|(level, add)| (level, Ok(base + add))).collect();
            let (low, high) = (Row::new(10, base), Row::new(17, base + rise));
            steps.extend(one_rise(low, high, &between));
        }
    }
    behind(&places(), steps)
}

/// Products about 2 to the 16th, the 24th and the 31st: a rise in volume over
/// 60,000 in level.
fn wide_products() -> Vec<Step> {
    let rising = |rise: u16, between: &[Outcome]| {
        let (low, high) = (Row::new(5000, 1), Row::new(65_000, 1 + rise));
        one_rise(low, high, between)
    };
    // 256 times 255 is 65,280 and 256 times 256 is 65,536, each 1 and more; 256
    // times 59,999 is 255 and more.
    let mut steps = rising(256, &[(5255, Ok(2)), (5256, Ok(2)), (64_999, Ok(256))]);
    // 32,768 times 512 is 2 to the 24th. That and 32,768 times 511 are 279 and
    // more; 32,768 times 59,999 is 32,767 and more.
    let to_the_24th = [(5511, Ok(280)), (5512, Ok(280)), (64_999, Ok(32_768))];
    steps.extend(rising(32_768, &to_the_24th));
    // 65,534 times 32,769 is 2,147,483,646, two below 2 to the 31st: 35,791 and
    // more. With a distance of one more it is 35,792 and more. 65,534 times 59,999
    // is 65,532 and more.
    let to_the_31st = [
        (37_769, Ok(35_792)),
        (37_770, Ok(35_793)),
        (64_999, Ok(65_533)),
    ];
    steps.extend(rising(65_534, &to_the_31st));
    behind(&places(), steps)
}

/// Every row is level 0 and volume 0, or every row 65,535 and 65,535. Nothing but
/// the word, the mark, the version, the address and the row counts is judged.
fn all_bytes_alike() -> Vec<Step> {
    let low = [(0, Ok(0)), (1, Err(14)), (65_536, Err(14))];
    let high = [
        (65_535, Ok(65_535)),
        (65_534, Err(14)),
        (65_536, Err(14)),
        (0, Err(14)),
    ];
    let zeros = tables().flat_map(|table| all_asked("all bytes 00h", table, &low));
    let ones = tables().flat_map(|table| all_asked("all bytes FFh", table, &high));
    let mut steps = behind(&full_of(0x00), zeros.collect());
    steps.extend(behind(&full_of(0xFF), ones.collect()));
    steps
}
