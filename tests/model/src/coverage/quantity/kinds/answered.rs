//! Questions that are answered.

use super::{Question, Row};
use crate::coverage::quantity::question::Found;
use crate::items::ITEMS;
use crate::tables::{self, PART_ROWS};

pub const ROWS: [Row; 56] = [
    ("0, row 1", |q| q.is_found(|found| found.number == 1)),
    ("0, row 2 to 350", |q| {
        q.is_found(|found| (2..=350).contains(&found.number))
    }),
    ("0, row 351", |q| q.is_found(|found| found.number == 351)),
    ("0, row 352", |q| q.is_found(|found| found.number == 352)),
    ("0, row 1's level, which it has alone", |q| {
        at_end(q, 0) && at(q, 1)
    }),
    ("0, row 1's level, which others have too", |q| {
        at_end(q, 0) && !at(q, 1)
    }),
    ("0, row 352's level, which it has alone", |q| {
        at_end(q, 1) && at(q, 1)
    }),
    ("0, row 352's level, which others have too", |q| {
        at_end(q, 1) && !at(q, 1)
    }),
    ("0, a level of one row", |q| at(q, 1)),
    ("0, a level of two rows", |q| at(q, 2)),
    ("0, a level of more rows", |q| {
        q.is_found(|found| found.distance == 0 && found.alike > 2)
    }),
    ("0, a level of all rows", |q| at(q, 352)),
    ("0, a level of rows with other volumes", |q| {
        q.is_found(|found| found.distance == 0 && first_alike(q, found).volume < found.row.volume)
    }),
    ("0, a level of rows in two parts", |q| {
        q.is_found(|found| {
            let part = |row| row / PART_ROWS;
            let (last, first) = (found.number - 1, found.number - found.alike);
            found.distance == 0 && part(first) < part(last)
        })
    }),
    ("0, above several rows of a level", |q| {
        above(q, |found| found.alike > 1)
    }),
    ("0, one above a row", |q| {
        above(q, |found| found.distance == 1)
    }),
    ("0, one below the next row", |q| {
        above(q, |found| found.distance + 1 == found.run)
    }),
    ("0, nothing cut off", |q| {
        above(q, |found| found.rise > 0 && found.rest() == 0)
    }),
    ("0, less than a half cut off", |q| {
        above(q, |found| found.rest() > 0 && 2 * found.rest() < found.run)
    }),
    ("0, a half cut off", |q| {
        above(q, |found| 2 * found.rest() == found.run)
    }),
    ("0, more than a half cut off", |q| {
        above(q, |found| 2 * found.rest() > found.run)
    }),
    ("0, a rise of which nothing is added", |q| {
        above(q, |found| found.rise > 0 && found.product() < found.run)
    }),
    ("0, no rise in volume", |q| {
        above(q, |found| found.rise == 0)
    }),
    ("0, a rise in volume of 1", |q| {
        above(q, |found| found.rise == 1)
    }),
    ("0, a rise in level of 2", |q| {
        above(q, |found| found.run == 2)
    }),
    ("0, a product above 65,535", |q| {
        above(q, |found| found.product() > 65_535)
    }),
    ("0, a product above 2^24", |q| {
        above(q, |found| found.product() > 1 << 24)
    }),
    ("0, a product above 2^31", |q| {
        above(q, |found| found.product() > 1 << 31)
    }),
    ("0, a rise of 65,535 over 65,535", |q| {
        above(q, |found| [found.rise, found.run] == [65_535; 2])
    }),
    ("0, a rise above 65,000 over 2 or 3", |q| {
        above(q, |found| found.rise > 65_000 && found.run < 4)
    }),
    ("0, before a rise above 65,000 over 1", |q| {
        q.is_found(|found| found.rise > 65_000 && found.run == 1)
    }),
    ("0, a rise in level above 65,000", |q| {
        above(q, |found| found.run > 65_000)
    }),
    ("0, level 0", |q| q.is_found(|_| q.level == 0)),
    ("0, level above 32,767", |q| {
        q.is_found(|_| q.level > 32_767)
    }),
    ("0, level 65,535", |q| q.is_found(|_| q.level == 65_535)),
    ("0, volume 0", |q| q.is_found(|_| q.volume == 0)),
    ("0, volume above 32,767", |q| {
        q.is_found(|_| q.volume > 32_767)
    }),
    ("0, volume 65,535", |q| q.is_found(|_| q.volume == 65_535)),
    ("0, volume 65,535 above a row", |q| {
        above(q, |found| q.volume == 65_535 && found.rise == 0)
    }),
    ("0, levels and volumes that all rise", |q| {
        steps(
            q,
            |row, next| row.level < next.level && row.volume < next.volume,
            351..352,
        )
    }),
    ("0, some levels equal", |q| {
        steps(q, |row, next| row.level == next.level, 1..351)
    }),
    ("0, all levels equal", |q| {
        steps(q, |row, next| row.level == next.level, 351..352)
    }),
    ("0, some volumes equal", |q| {
        steps(q, |row, next| row.volume == next.volume, 1..351)
    }),
    ("0, all volumes equal", |q| {
        steps(q, |row, next| row.volume == next.volume, 351..352)
    }),
    ("0, all rows alike", |q| {
        steps(q, |row, next| row == next, 351..352)
    }),
    ("0, equal rows with others behind", |q| {
        steps(q, |row, next| row == next, 1..351) && !is_padded(q)
    }),
    ("0, a padded tail", |q| q.number == 0 && is_padded(q)),
    ("0, equal levels, other volumes", |q| {
        steps(
            q,
            |row, next| row.level == next.level && row.volume < next.volume,
            1..352,
        )
    }),
    ("0, row 351 and 352 of one level alone", |q| {
        let step = |row: usize| q.rows[row - 1].level == q.rows[row].level;
        q.number == 0 && step(351) && q.rows[350].volume < q.rows[351].volume
    }),
    ("0, row 352 all FFh", |q| {
        q.number == 0 && q.rows[351].bytes() == [0xFF; 4]
    }),
    ("0, behind a part of the table", |q| behind(q, ('S', 0))),
    ("0, behind a sealed part of the table", |q| {
        behind(q, ('K', 16))
    }),
    ("0, other tables not whole", |q| {
        q.number == 0 && !is_whole(q.image)
    }),
    ("0, all tables whole", |q| {
        q.number == 0 && is_whole(q.image)
    }),
    ("0, the signature false", |q| {
        q.number == 0 && q.place.is_some_and(|place| ITEMS[place].is_false(q.image))
    }),
    ("0, the signature true", |q| {
        q.number == 0 && q.place.is_some_and(|place| !ITEMS[place].is_false(q.image))
    }),
];

/// Whether it is at a row's level, which so many rows have.
fn at(q: &Question, alike: usize) -> bool {
    q.is_found(|found| found.distance == 0 && found.alike == alike)
}

/// Whether it is at the level of row 1, or of row 352.
fn at_end(q: &Question, end: usize) -> bool {
    q.is_found(|_| q.ends().is_some_and(|ends| ends[end] == q.level))
}

/// Whether it is above a row like this, and below the next.
fn above(q: &Question, fits: impl Fn(&Found) -> bool) -> bool {
    q.is_found(|found| found.distance > 0 && fits(found))
}

/// The first row of the level that is found.
fn first_alike(q: &Question, found: &Found) -> tables::Row {
    q.rows[found.number - found.alike]
}

/// Whether it is answered, and so many steps of the table are like this.
fn steps(
    q: &Question,
    fits: impl Fn(tables::Row, tables::Row) -> bool,
    count: std::ops::Range<usize>,
) -> bool {
    let like = |pair: &&[tables::Row]| fits(pair[0], pair[1]);
    q.number == 0 && count.contains(&q.rows.windows(2).filter(like).count())
}

/// Whether the last row is repeated, and there are others.
fn is_padded(q: &Question) -> bool {
    q.rows[350] == q.rows[351] && q.rows[0] != q.rows[351]
}

fn is_whole(image: &[u8]) -> bool {
    image[17..49]
        .chunks_exact(2)
        .all(|word| word == [0x07, 0xFF])
}

fn behind(q: &Question, call: (char, u8)) -> bool {
    q.number == 0 && q.before == Some(call) && q.behind_part
}
