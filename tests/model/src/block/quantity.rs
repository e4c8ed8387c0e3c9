//! Document 02, wish 3: the volume that a table has at a level, both in the
//! table's units. The image is only read.

use super::{held_word, span, table_index, usable, Refusal, ALL_PARTS, TABLES, TABLE_BYTES};

const ROW_BYTES: usize = 4;

struct Row {
    level: u32,
    volume: u32,
}

/// The checks stand in the order of their numbers: 1, 10, 12, 13 and 14. Neither
/// the table's number nor the level is cut, so a level above 65,535 is above
/// every row.
pub fn volume_at(image: &[u8], table: u32, level: u32) -> Result<u32, Refusal> {
    if !usable(image) {
        return Err(Refusal::Image);
    }
    let index = table_index(u64::from(table))?;
    if held_word(image, index) != ALL_PARTS {
        return Err(Refusal::Incomplete);
    }
    let rows = rows_in(&image[span(TABLES, index, TABLE_BYTES)]);
    if !rows.windows(2).all(|pair| never_falls(&pair[0], &pair[1])) {
        return Err(Refusal::Falling);
    }
    let (first, last) = (&rows[0], &rows[rows.len() - 1]);
    if level < first.level || level > last.level {
        return Err(Refusal::Level);
    }
    Ok(volume(&rows, level))
}

/// The parts lie one behind the other, so a table is one run of 352 rows, each a
/// level and a volume, high byte first.
fn rows_in(table: &[u8]) -> Vec<Row> {
    let number = |bytes: &[u8]| u32::from(bytes[0]) * 256 + u32::from(bytes[1]);
    let rows = table.chunks_exact(ROW_BYTES).map(|row| Row {
        level: number(&row[..2]),
        volume: number(&row[2..]),
    });
    rows.collect()
}

/// Neighbours may be equal.
fn never_falls(row: &Row, next: &Row) -> bool {
    row.level <= next.level && row.volume <= next.volume
}

/// The level is not below row 1, so some row is at or below it.
fn volume(rows: &[Row], level: u32) -> u32 {
    let mut last = 0;
    for (place, row) in rows.iter().enumerate() {
        if row.level <= level {
            last = place;
        }
    }
    let row = &rows[last];
    let Some(next) = rows.get(last + 1) else {
        return row.volume; // row 352
    };
    // The next row is above the level, so the rise in level is not 0. 65,535
    // times 65,535 is less than 2 to the 32nd.
    let rise = next.volume - row.volume;
    row.volume + rise * (level - row.level) / (next.level - row.level)
}
