//! Checkers that judge rows otherwise, or give another number.

use super::{byte, climbs, climbs_by, rises, rising, rows_of, Checker, File, Wrong, RIGHT};
use crate::coverage::table_file::file::COMMAND;
use crate::tables::{Row, PART_ROWS};

const fn rows(rows: fn(&[&[u8]]) -> Vec<Row>) -> Checker {
    Checker { rows, ..RIGHT }
}

const fn climb(climb: fn(&[Row]) -> bool) -> Checker {
    Checker { climb, ..RIGHT }
}

const fn gives(gives: fn(&File, u8) -> u8) -> Checker {
    Checker { gives, ..RIGHT }
}

/// Rows that are read otherwise, and then judged as they should be.
fn read(rows: &[Row], read: fn(Row) -> Row) -> bool {
    let rows: Vec<Row> = rows.iter().map(|row| read(*row)).collect();
    climbs(&rows)
}

/// Moves all numbers by half of their range, so that they stand in the order that
/// a sign gives them.
fn signed(number: u16) -> u16 {
    number ^ 0x8000
}

/// Whether every step is like this.
fn all_steps(rows: &[Row], fits: fn(Row, Row) -> bool) -> bool {
    rows.windows(2).all(|pair| fits(pair[0], pair[1]))
}

/// Whether steps up to the last that rises are like this, rows behind it equal.
fn up_to_end(rows: &[Row], rises: fn(Row, Row) -> bool) -> bool {
    climbs_by(rows, rises, |last, row| last == row)
}

pub const ROWS: [Wrong; 47] = [
    (
        "rows in the order of the file",
        rows(|frames| frames.iter().flat_map(|frame| rows_of(frame)).collect()),
    ),
    (
        "rows from the last part to the first",
        rows(|frames| {
            let mut frames = frames.to_vec();
            frames.sort_by_key(|frame| 255 - byte(frame, 3));
            frames.into_iter().flat_map(rows_of).collect()
        }),
    ),
    ("rows not judged", climb(|_| true)),
    (
        "levels alone judged",
        climb(|rows| {
            climbs_by(
                rows,
                |row, next| row.level < next.level,
                |last, row| last.level == row.level,
            )
        }),
    ),
    (
        "volumes alone judged",
        climb(|rows| all_steps(rows, |row, next| row.volume <= next.volume)),
    ),
    (
        "never falling is enough",
        climb(|rows| {
            all_steps(rows, |row, next| {
                row.level <= next.level && row.volume <= next.volume
            })
        }),
    ),
    (
        "levels may stay",
        climb(|rows| {
            up_to_end(rows, |row, next| {
                row != next && row.level <= next.level && row.volume <= next.volume
            })
        }),
    ),
    (
        "volumes must rise",
        climb(|rows| {
            up_to_end(rows, |row, next| {
                rises(row, next) && row.volume < next.volume
            })
        }),
    ),
    (
        "volumes may fall",
        climb(|rows| up_to_end(rows, |row, next| row.level < next.level)),
    ),
    (
        "rows as one number each",
        climb(|rows| up_to_end(rows, |row, next| row.bytes() < next.bytes())),
    ),
    (
        "volumes before levels",
        climb(|rows| read(rows, |row| Row::new(row.volume, row.level))),
    ),
    (
        "repeats anywhere",
        climb(|rows| all_steps(rows, |row, next| row == next || rises(row, next))),
    ),
    (
        "repeats of one row anywhere",
        climb(|rows| {
            let mut rows = rows.to_vec();
            let repeat = (1..rows.len()).find(|&row| rows[row] == rows[row - 1]);
            if let Some(repeat) = repeat {
                rows.remove(repeat);
            }
            climbs(&rows)
        }),
    ),
    (
        "nothing asked behind row n",
        climb(|rows| rising(rows, rises) > 1 || rows.len() < 2),
    ),
    (
        "levels alone asked behind row n",
        climb(|rows| climbs_by(rows, rises, |last, row| last.level == row.level)),
    ),
    (
        "volumes alone asked behind row n",
        climb(|rows| climbs_by(rows, rises, |last, row| last.volume == row.volume)),
    ),
    (
        "no higher row asked behind row n",
        climb(|rows| {
            climbs_by(rows, rises, |last, row| {
                row.level <= last.level && row.volume <= last.volume
            })
        }),
    ),
    (
        "no lower row asked behind row n",
        climb(|rows| {
            climbs_by(rows, rises, |last, row| {
                row.level >= last.level && row.volume >= last.volume
            })
        }),
    ),
    (
        "zeros taken behind row n",
        climb(|rows| {
            climbs_by(rows, rises, |last, row| {
                last == row || row == Row::new(0, 0)
            })
        }),
    ),
    (
        "FFh taken behind row n",
        climb(|rows| {
            climbs_by(rows, rises, |last, row| {
                last == row || row == Row::new(65_535, 65_535)
            })
        }),
    ),
    (
        "one row more asked behind row n",
        climb(|rows| {
            let up = rising(rows, rises);
            rows.get(up).is_none_or(|row| *row == rows[up - 1])
        }),
    ),
    (
        "the last row alone asked behind row n",
        climb(|rows| {
            let up = rising(rows, rises);
            rows.last() == rows.get(up.saturating_sub(1))
        }),
    ),
    ("no repeats taken", climb(|rows| all_steps(rows, rises))),
    (
        "row 352 must repeat",
        climb(|rows| climbs(rows) && rising(rows, rises) < 352),
    ),
    (
        "row 351 as row n refused",
        climb(|rows| climbs(rows) && rising(rows, rises) != 351),
    ),
    (
        "row 1 as row n refused",
        climb(|rows| climbs(rows) && rising(rows, rises) > 1),
    ),
    (
        "row 2 as row n refused",
        climb(|rows| climbs(rows) && rising(rows, rises) != 2),
    ),
    (
        "row n at the end of a part alone",
        climb(|rows| climbs(rows) && rising(rows, rises).is_multiple_of(PART_ROWS)),
    ),
    (
        "row n at the end of a part refused",
        climb(|rows| {
            let last = rising(rows, rises);
            climbs(rows) && (last == rows.len() || !last.is_multiple_of(PART_ROWS))
        }),
    ),
    (
        "each part for itself",
        climb(|rows| rows.chunks(PART_ROWS).all(climbs)),
    ),
    (
        "steps between parts not judged",
        climb(|rows| {
            let mut steps = (1..).zip(rows.windows(2));
            let mut repeated = false;
            steps.all(|(step, pair)| {
                repeated |= pair[0] == pair[1];
                let holds = if repeated {
                    pair[0] == pair[1]
                } else {
                    rises(pair[0], pair[1])
                };
                holds || step % PART_ROWS == 0
            })
        }),
    ),
    (
        "the first row not judged",
        climb(|rows| climbs(rows.get(1..).unwrap_or_default())),
    ),
    (
        "the last row not judged",
        climb(|rows| climbs(&rows[..rows.len().saturating_sub(1)])),
    ),
    (
        "the last part not judged",
        climb(|rows| climbs(&rows[..rows.len().saturating_sub(PART_ROWS)])),
    ),
    (
        "the first part not judged",
        climb(|rows| climbs(rows.get(PART_ROWS..).unwrap_or_default())),
    ),
    (
        "the first and last row of each part alone judged",
        climb(|rows| {
            let ends = rows
                .chunks(PART_ROWS)
                .flat_map(|part| [part[0], part[part.len() - 1]]);
            climbs(&ends.collect::<Vec<Row>>())
        }),
    ),
    (
        "levels with a sign",
        climb(|rows| read(rows, |row| Row::new(signed(row.level), row.volume))),
    ),
    (
        "volumes with a sign",
        climb(|rows| read(rows, |row| Row::new(row.level, signed(row.volume)))),
    ),
    (
        "numbers low byte first",
        climb(|rows| {
            read(rows, |row| {
                Row::new(row.level.swap_bytes(), row.volume.swap_bytes())
            })
        }),
    ),
    (
        "levels by their high byte",
        climb(|rows| {
            up_to_end(rows, |row, next| {
                row.level >> 8 <= next.level >> 8 && row != next && row.volume <= next.volume
            })
        }),
    ),
    (
        "volumes by their high byte",
        climb(|rows| {
            up_to_end(rows, |row, next| {
                row.level < next.level && row.volume >> 8 <= next.volume >> 8
            })
        }),
    ),
    (
        "levels must rise by more than 1",
        climb(|rows| {
            up_to_end(rows, |row, next| {
                rises(row, next) && next.level - row.level > 1
            })
        }),
    ),
    (
        "a fall in level by 1 taken",
        climb(|rows| {
            up_to_end(rows, |row, next| {
                row != next
                    && row.level <= next.level.saturating_add(1)
                    && row.volume <= next.volume
            })
        }),
    ),
    (
        "a fall in volume by 1 taken",
        climb(|rows| {
            up_to_end(rows, |row, next| {
                row.level < next.level && row.volume <= next.volume.saturating_add(1)
            })
        }),
    ),
    (
        "row n where volumes stay",
        climb(|rows| {
            climbs_by(
                rows,
                |row, next| rises(row, next) && row.volume < next.volume,
                |last, row| last.volume == row.volume,
            )
        }),
    ),
    (
        "level 0 refused",
        climb(|rows| climbs(rows) && rows.first().is_none_or(|row| row.level > 0)),
    ),
    (
        "level 65,535 refused",
        climb(|rows| climbs(rows) && rows.last().is_none_or(|row| row.level < 65_535)),
    ),
];

/// One number given for another.
fn given_as(number: u8, one: u8, other: u8) -> u8 {
    if number == one {
        other
    } else {
        number
    }
}

/// The check that the first bad frame fails, if there is one.
fn of_frames(file: &File) -> Option<u8> {
    let mut faults = file.pieces.iter().map(|piece| piece.fault);
    faults.find(|fault| *fault != 0)
}

pub const GIVEN: [Wrong; 10] = [
    (
        "the frame's own number given",
        gives(|file, number| match number {
            17 => of_frames(file).unwrap_or(number),
            _ => number,
        }),
    ),
    (
        "a part outside given as 18",
        gives(|file, number| {
            let is_part = |part: &Option<u8>| matches!(part, Some(1..=11));
            match number == 19 && !file.parts().iter().all(is_part) {
                true => 18,
                false => number,
            }
        }),
    ),
    (
        "a part twice given as 20",
        gives(|file, number| {
            let is_part = |part: &Option<u8>| matches!(part, Some(1..=11));
            match number == 19 && file.parts().iter().all(is_part) {
                true => 20,
                false => number,
            }
        }),
    ),
    (
        "a wrong length given as 17",
        gives(|file, number| {
            match number == 18 && file.pieces.iter().any(|piece| piece.contents.len() != 132) {
                true => 17,
                false => number,
            }
        }),
    ),
    (
        "a wrong command given as 17",
        gives(|file, number| {
            match number == 18
                && file
                    .pieces
                    .iter()
                    .any(|piece| piece.byte(COMMAND) != Some(59))
            {
                true => 17,
                false => number,
            }
        }),
    ),
    (
        "17 given as 18",
        gives(|_, number| given_as(number, 17, 18)),
    ),
    (
        "18 given as 10",
        gives(|_, number| given_as(number, 18, 10)),
    ),
    (
        "18 given as 19",
        gives(|_, number| given_as(number, 18, 19)),
    ),
    (
        "19 given as 20",
        gives(|_, number| given_as(number, 19, 20)),
    ),
    (
        "20 given as 13",
        gives(|_, number| given_as(number, 20, 13)),
    ),
];
