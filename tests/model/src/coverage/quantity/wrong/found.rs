//! Answerers that take another row, or add something else to its volume.

use super::{found, named, Answerer, Line, Meant, Wrong, RIGHT};
use crate::tables::Row;

const fn finds(find: fn(&Meant) -> usize) -> Answerer {
    Answerer { find, ..RIGHT }
}

const fn adds(adds: fn(&Line) -> i64) -> Answerer {
    Answerer { adds, ..RIGHT }
}

const ROWS: [(&str, Answerer); 10] = [
    ("first row of several", finds(first_alike)),
    (
        "second row of several",
        finds(|m| (first_alike(m) + 1).min(found(m))),
    ),
    ("any row of several, by halving", finds(by_halving)),
    (
        "last row below the level",
        finds(|m| last_that(m, |row| u32::from(row.level) < m.level)),
    ),
    ("next row", finds(|m| (found(m) + 1).min(m.rows.len() - 1))),
    ("row before", finds(|m| found(m).saturating_sub(1))),
    ("row 352 never found", finds(|m| found(m).min(350))),
    ("row 1 never found", finds(|m| found(m).max(1))),
    (
        "row 1 where no row is above",
        finds(|m| {
            let above = m.rows.iter().position(|row| u32::from(row.level) > m.level);
            above.map_or(0, |above| above.saturating_sub(1))
        }),
    ),
    (
        "last row of the level or of the part",
        finds(|m| {
            let first = first_alike(m);
            found(m).min(first / 32 * 32 + 31)
        }),
    ),
];

/// The first row that has the level of the one that is found.
fn first_alike(meant: &Meant) -> usize {
    let level = meant.rows[found(meant)].level;
    let first = meant.rows.iter().position(|row| row.level == level);
    first.unwrap_or(0)
}

fn last_that(meant: &Meant, fits: impl Fn(&Row) -> bool) -> usize {
    meant.rows.iter().rposition(fits).unwrap_or(0)
}

/// Stops at the first row of the level that it comes upon.
fn by_halving(meant: &Meant) -> usize {
    let (mut low, mut high) = (0, meant.rows.len());
    while high - low > 1 {
        let middle = (low + high) / 2;
        let level = u32::from(meant.rows[middle].level);
        if level == meant.level {
            return middle;
        }
        match level < meant.level {
            true => low = middle,
            false => high = middle,
        }
    }
    low
}

const ROUNDED: [(&str, Answerer); 8] = [
    (
        "rounded up",
        adds(|line| line.share(line.product() + line.run - 1)),
    ),
    (
        "rounded to the nearest",
        adds(|line| line.share(line.product() + line.run / 2)),
    ),
    (
        "rounded to the nearest, a half down",
        adds(|line| line.share(line.product() + (line.run - 1) / 2)),
    ),
    (
        "rounded down twice",
        adds(|line| line.share(line.rise) * line.distance),
    ),
    (
        "a share in hundredths",
        adds(|line| line.rise * line.share(100 * line.distance) / 100),
    ),
    (
        "a share in 16 bits",
        adds(|line| line.rise * line.share(65_536 * line.distance) / 65_536),
    ),
    (
        "in single precision",
        adds(|line| match line.run {
            0 => 0,
            run => (line.rise as f32 * line.distance as f32 / run as f32) as i64,
        }),
    ),
    (
        "one less where nothing is cut off",
        adds(|line| line.share((line.product() - 1).max(0))),
    ),
];

const SHARES: [(&str, Answerer); 14] = [
    ("nothing added", adds(|_| 0)),
    (
        "the whole rise added",
        adds(|line| if line.distance > 0 { line.rise } else { 0 }),
    ),
    (
        "the nearest row's volume",
        adds(|line| {
            if 2 * line.distance > line.run {
                line.rise
            } else {
                0
            }
        }),
    ),
    (
        "half of the rise added",
        adds(|line| if line.distance > 0 { line.rise / 2 } else { 0 }),
    ),
    (
        "distance from the next row",
        adds(|line| match line.distance {
            0 => 0,
            distance => line.share(line.rise * (line.run - distance)),
        }),
    ),
    (
        "distance one more",
        adds(|line| match line.distance {
            0 => 0,
            distance => line.share(line.rise * (distance + 1)),
        }),
    ),
    (
        "distance one less",
        adds(|line| line.share(line.rise * (line.distance - 1).max(0))),
    ),
    (
        "rise in level one more",
        adds(|line| line.product() / (line.run + 1)),
    ),
    (
        "rise in level one less",
        adds(|line| line.product() / (line.run - 1).max(1)),
    ),
    (
        "rises the other way round",
        adds(|line| line.run * line.distance / line.rise.max(1)),
    ),
    (
        "row's volume not added",
        adds(|line| match line.distance {
            0 => 0,
            _ => line.share(line.product()) - line.volume,
        }),
    ),
    (
        "nothing added between parts",
        adds(|line| match line.row % 32 {
            0 => 0,
            _ => line.share(line.product()),
        }),
    ),
    (
        "nothing added behind row 1",
        adds(|line| match line.row {
            1 => 0,
            _ => line.share(line.product()),
        }),
    ),
    (
        "nothing added behind row 351",
        adds(|line| match line.row {
            351 => 0,
            _ => line.share(line.product()),
        }),
    ),
];

const WIDTHS: [(&str, Answerer); 9] = [
    (
        "product kept to 16 bits",
        adds(|line| line.share(line.product() % (1 << 16))),
    ),
    (
        "product kept to 24 bits",
        adds(|line| line.share(line.product() % (1 << 24))),
    ),
    (
        "product kept to 31 bits",
        adds(|line| line.share(line.product() % (1 << 31))),
    ),
    (
        "product as signed",
        adds(|line| line.product() as i32 as i64 / line.run.max(1)),
    ),
    (
        "rise kept to 8 bits",
        adds(|line| line.share(line.rise % 256 * line.distance)),
    ),
    (
        "rise kept to 15 bits",
        adds(|line| line.share(line.rise % 32_768 * line.distance)),
    ),
    (
        "distance kept to 8 bits",
        adds(|line| line.share(line.distance % 256 * line.rise)),
    ),
    (
        "distance kept to 15 bits",
        adds(|line| line.share(line.distance % 32_768 * line.rise)),
    ),
    (
        "volume kept to 15 bits",
        adds(|line| (line.volume + line.share(line.product())) % 32_768 - line.volume),
    ),
];

impl Line {
    fn product(&self) -> i64 {
        self.rise * self.distance
    }
}

pub fn wrong() -> Vec<Wrong> {
    let lists: [&[(&str, Answerer)]; 4] = [&ROWS, &ROUNDED, &SHARES, &WIDTHS];
    lists.into_iter().flat_map(named).collect()
}
