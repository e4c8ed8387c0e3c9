//! Tables whose rows climb or do not, by what happens at one step from a row to
//! the next.

use super::{any_last, Change, Draft, Named};
use crate::streams::Rng;
use crate::tables::{climbing, fall, strict, Of, Row, PART_ROWS, ROWS};

const fn refused(name: &'static str, change: fn(&mut Rng, &mut Draft, usize)) -> Named {
    (name, 20, Change::Rows(change))
}

const fn accepted(name: &'static str, change: fn(&mut Rng, &mut Draft, usize)) -> Named {
    (name, 0, Change::Rows(change))
}

/// A row up to which a table climbs that is not before this one.
fn last_from(rng: &mut Rng, least: usize) -> usize {
    let any = least + rng.below(ROWS + 1 - least);
    rng.pick(&[any, any, least, ROWS])
}

/// A row up to which a table climbs that is not behind this one.
fn last_to(rng: &mut Rng, most: usize) -> usize {
    let any = 1 + rng.below(most);
    rng.pick(&[any, any, most])
}

/// A number falls at this step, and at no other.
fn falls_at(rng: &mut Rng, draft: &mut Draft, step: usize, of: Of) {
    loop {
        let last = last_from(rng, step + 1);
        let mut rows = climbing(rng, last);
        // There is no fall between 0 and 65,535, nor in rows that rise by nothing.
        if let Some((row, to)) = fall(rng, &rows, step, of) {
            rows[row] = to;
            draft.rows = rows;
            return;
        }
    }
}

/// The same by no more than 1, in rows that all rise.
fn falls_by_1(rng: &mut Rng, draft: &mut Draft, step: usize, of: Of) {
    loop {
        let mut rows = strict(rng);
        if let Some(lower) = of.get(rows[step - 1]).checked_sub(1) {
            of.set(&mut rows[step], lower);
            draft.rows = rows;
            return;
        }
    }
}

/// Rows that all rise up to a row, with those behind equal to it, so that what is
/// done to them has room on either side.
fn roomy(rng: &mut Rng, last: usize) -> Vec<Row> {
    loop {
        let mut rows = strict(rng);
        let row = rows[last - 1];
        rows[last..].fill(row);
        if (1..65_535).contains(&row.level) && (1..65_535).contains(&row.volume) {
            return rows;
        }
    }
}

/// One row behind row n is another, made of it like this.
fn one_behind(rng: &mut Rng, draft: &mut Draft, step: usize, make: fn(Row) -> Row) {
    let step = step.max(2);
    let last = last_to(rng, step - 1);
    let mut rows = roomy_from_2(rng, last);
    rows[step] = make(rows[step]);
    draft.rows = rows;
}

/// All rows from one behind row n on are others.
fn all_behind(rng: &mut Rng, draft: &mut Draft, step: usize, make: fn(Row) -> Row) {
    let step = step.max(2);
    let last = last_to(rng, step - 1);
    let mut rows = roomy_from_2(rng, last);
    let row = make(rows[step]);
    rows[step..].fill(row);
    draft.rows = rows;
}

/// Row 1 may be all there is of a table that climbs; then it has room as well.
fn roomy_from_2(rng: &mut Rng, last: usize) -> Vec<Row> {
    match last {
        1 => vec![Row::new(1 + rng.below(60_000) as u16, 1 + rng.below(60_000) as u16); ROWS],
        _ => roomy(rng, last),
    }
}

/// A fall inside one frame, by the frame's place in the file: what is wrong with
/// its rows stands in none other.
pub fn is_inside(rng: &mut Rng, draft: &mut Draft, frame: usize) {
    let part = usize::from(draft.order[frame]);
    let step = PART_ROWS * (part - 1) + 1 + rng.below(PART_ROWS - 1);
    let of = rng.pick(&[Of::Level, Of::Volume]);
    falls_at(rng, draft, step, of);
}

pub const TABLES: [Named; 34] = [
    refused("a level falls", |rng, draft, step| {
        falls_at(rng, draft, step, Of::Level)
    }),
    refused("a volume falls", |rng, draft, step| {
        falls_at(rng, draft, step, Of::Volume)
    }),
    refused("a level falls by 1", |rng, draft, step| {
        falls_by_1(rng, draft, step, Of::Level)
    }),
    refused("a volume falls by 1", |rng, draft, step| {
        falls_by_1(rng, draft, step, Of::Volume)
    }),
    refused("equal levels with a rise in volume", |rng, draft, step| {
        let last = last_from(rng, step + 1);
        let mut rows = strict(rng);
        let row = rows[last - 1];
        rows[last..].fill(row);
        let level = rows[step - 1].level;
        let to = rows[step];
        for row in rows[step..].iter_mut().filter(|row| **row == to) {
            row.level = level;
        }
        draft.rows = rows;
    }),
    refused("a row repeated and then a rise", |rng, draft, step| {
        let step = step.min(ROWS - 2);
        let last = last_from(rng, step + 2);
        let mut rows = strict(rng);
        let row = rows[last - 1];
        rows[last..].fill(row);
        rows[step] = rows[step - 1];
        draft.rows = rows;
    }),
    refused("a rise in level behind row n", |rng, draft, step| {
        one_behind(rng, draft, step, |row| Row::new(row.level + 1, row.volume));
    }),
    refused("a rise in both behind row n", |rng, draft, step| {
        one_behind(rng, draft, step, |row| {
            Row::new(row.level + 1, row.volume + 1)
        });
    }),
    refused("a fall in level behind row n", |rng, draft, step| {
        one_behind(rng, draft, step, |row| Row::new(row.level - 1, row.volume));
    }),
    refused("a rise in volume behind row n", |rng, draft, step| {
        one_behind(rng, draft, step, |row| Row::new(row.level, row.volume + 1));
    }),
    refused("a fall in volume behind row n", |rng, draft, step| {
        one_behind(rng, draft, step, |row| Row::new(row.level, row.volume - 1));
    }),
    refused("a row of zeros behind row n", |rng, draft, step| {
        one_behind(rng, draft, step, |_| Row::new(0, 0));
    }),
    refused("a row of FFh behind row n", |rng, draft, step| {
        one_behind(rng, draft, step, |_| Row::new(65_535, 65_535));
    }),
    refused("higher rows behind repeated ones", |rng, draft, step| {
        all_behind(rng, draft, step, |row| {
            Row::new(row.level + 1, row.volume + 1)
        });
    }),
    refused(
        "rows of a higher volume behind repeated ones",
        |rng, draft, step| {
            all_behind(rng, draft, step, |row| Row::new(row.level, row.volume + 1));
        },
    ),
    refused("lower rows behind repeated ones", |rng, draft, step| {
        all_behind(rng, draft, step, |row| {
            Row::new(row.level - 1, row.volume - 1)
        });
    }),
    refused(
        "rows of a lower volume behind repeated ones",
        |rng, draft, step| {
            all_behind(rng, draft, step, |row| Row::new(row.level, row.volume - 1));
        },
    ),
    refused("rows of zeros behind", |rng, draft, step| {
        let mut rows = roomy(rng, step);
        rows[step..].fill(Row::new(0, 0));
        draft.rows = rows;
    }),
    refused(
        "a step of one level, the volume lower",
        |rng, draft, step| {
            let mut rows = roomy(rng, step);
            let row = rows[step - 1];
            rows[step..].fill(Row::new(row.level, row.volume - 1));
            draft.rows = rows;
        },
    ),
    refused("two parts turned", |rng, draft, step| {
        let mut rows = strict(rng);
        let part = (step / PART_ROWS).min(9);
        let (one, other) = (PART_ROWS * part, PART_ROWS * (part + 1));
        for row in 0..PART_ROWS {
            rows.swap(one + row, other + row);
        }
        draft.rows = rows;
    }),
    refused("rows from the last to the first", |rng, draft, _| {
        draft.rows = strict(rng);
        draft.rows.reverse();
    }),
    // The rows climb from frame to frame, and not from part to part.
    refused("rows in order in the file alone", |rng, draft, step| {
        let rows = strict(rng);
        let turn = 1 + step % 10;
        draft.order.sort();
        draft.order.rotate_left(turn);
        for (place, &part) in draft.order.iter().enumerate() {
            let (from, to) = (PART_ROWS * place, PART_ROWS * (usize::from(part) - 1));
            draft.rows[to..to + PART_ROWS].copy_from_slice(&rows[from..from + PART_ROWS]);
        }
    }),
    accepted("a level higher by 1", |rng, draft, step| {
        let last = last_from(rng, step + 1);
        let mut rows = strict(rng);
        rows[step].level = rows[step - 1].level + 1;
        let row = rows[last - 1];
        rows[last..].fill(row);
        draft.rows = rows;
    }),
    accepted("equal volumes with a rise in level", |rng, draft, step| {
        let last = last_from(rng, step + 1);
        let mut rows = strict(rng);
        rows[step].volume = rows[step - 1].volume;
        let row = rows[last - 1];
        rows[last..].fill(row);
        draft.rows = rows;
    }),
    accepted("a rise right behind row n", |rng, draft, step| {
        let mut rows = roomy(rng, step);
        let row = rows[step - 1];
        rows[step..].fill(Row::new(row.level + 1, row.volume));
        draft.rows = rows;
    }),
    accepted("repeated from here on", |rng, draft, step| {
        draft.rows = climbing(rng, step)
    }),
    accepted("rows of FFh behind", |rng, draft, step| {
        let mut rows = roomy(rng, step);
        rows[step..].fill(Row::new(65_535, 65_535));
        draft.rows = rows;
    }),
    accepted("all rows alike", |rng, draft, _| {
        let row = Row::new(rng.below(65_536) as u16, rng.below(65_536) as u16);
        draft.rows = vec![row; ROWS];
    }),
    accepted("all rows zeros", |_, draft, _| {
        draft.rows = vec![Row::new(0, 0); ROWS];
    }),
    accepted("all rows FFh", |_, draft, _| {
        draft.rows = vec![Row::new(65_535, 65_535); ROWS];
    }),
    accepted("0 and then 65,535", |rng, draft, _| {
        let volume = rng.pick(&[0, 65_535]);
        draft.rows = vec![Row::new(65_535, 65_535); ROWS];
        draft.rows[0] = Row::new(0, volume);
    }),
    accepted("from 0 to 65,535", |rng, draft, step| {
        let last = step + 1;
        let mut rows = climbing(rng, ROWS);
        rows[0] = Row::new(0, 0);
        rows[last - 1..].fill(Row::new(65_535, 65_535));
        draft.rows = rows;
    }),
    accepted("all volumes alike", |rng, draft, _| {
        let last = any_last(rng);
        let mut rows = climbing(rng, last);
        let any = rng.below(65_536) as u16;
        let volume = rng.pick(&[any, 0, 65_535]);
        for row in &mut rows {
            row.volume = volume;
        }
        draft.rows = rows;
    }),
    accepted("up to this row alone", |rng, draft, step| {
        draft.rows = climbing(rng, step + 1)
    }),
];
