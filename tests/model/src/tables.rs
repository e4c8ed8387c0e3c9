//! Tables of levels and volumes (document 02, wish 3): their rows, the bytes
//! that these are stored as, and drawn tables of every kind with levels to ask
//! of them.

use crate::streams::Rng;

/// How many rows a table has, and how many of these a part.
pub const ROWS: usize = 352;
pub const PART_ROWS: usize = 32;

#[derive(Clone, Copy, Debug, PartialEq, Eq)]
pub struct Row {
    pub level: u16,
    pub volume: u16,
}

impl Row {
    pub const fn new(level: u16, volume: u16) -> Self {
        Row { level, volume }
    }

    /// As it is stored.
    pub fn bytes(self) -> [u8; 4] {
        let ([a, b], [c, d]) = (self.level.to_be_bytes(), self.volume.to_be_bytes());
        [a, b, c, d]
    }
}

/// Rows as they are stored.
pub fn bytes(rows: &[Row]) -> Vec<u8> {
    rows.iter().flat_map(|row| row.bytes()).collect()
}

/// The rows that are stored as these bytes.
pub fn rows(bytes: &[u8]) -> Vec<Row> {
    let row = |row: &[u8]| Row {
        level: u16::from_be_bytes([row[0], row[1]]),
        volume: u16::from_be_bytes([row[2], row[3]]),
    };
    bytes.chunks_exact(4).map(row).collect()
}

/// Data of the command 59 that writes a part of these rows.
pub fn part(table: u8, rows: &[Row], part: u8) -> Vec<u8> {
    let first = PART_ROWS * usize::from(part - 1);
    let rows = &rows[first..first + PART_ROWS];
    [vec![table, part], bytes(rows)].concat()
}

/// Either number of a row.
#[derive(Clone, Copy, Debug, PartialEq, Eq, PartialOrd, Ord)]
pub enum Of {
    Level,
    Volume,
}

impl Of {
    pub fn get(self, row: Row) -> u16 {
        match self {
            Of::Level => row.level,
            Of::Volume => row.volume,
        }
    }

    pub fn set(self, row: &mut Row, value: u16) {
        match self {
            Of::Level => row.level = value,
            Of::Volume => row.volume = value,
        }
    }
}

/// Where a number falls in these rows: at 1 if row 2 is below row 1, and so on.
pub fn falls(rows: &[Row], of: Of) -> Vec<usize> {
    let mut falls = Vec::new();
    for (step, pair) in (1..).zip(rows.windows(2)) {
        if of.get(pair[1]) < of.get(pair[0]) {
            falls.push(step);
        }
    }
    falls
}

/// A number for each row, drawn like this, in order.
fn in_order(rng: &mut Rng, mut draw: impl FnMut(&mut Rng) -> u16) -> Vec<u16> {
    let mut numbers: Vec<u16> = (0..ROWS).map(|_| draw(rng)).collect();
    numbers.sort();
    numbers
}

fn any(rng: &mut Rng) -> u16 {
    rng.below(65_536) as u16
}

/// Numbers for all rows that rise from each to the next, evenly or by chance.
fn rising(rng: &mut Rng) -> Vec<u16> {
    let least = 1 + rng.below(180) as u16;
    let even = (0..).map(|row| row * least);
    if rng.percent(30) {
        return even.take(ROWS).collect();
    }
    let room = 65_536 - usize::from(least) * ROWS;
    let spread = in_order(rng, |rng| rng.below(room) as u16);
    spread.iter().zip(even).map(|(by, row)| by + row).collect()
}

/// Numbers for all rows that never fall: with no two alike, with some, with many,
/// all of them alike, in small steps, and at both ends.
fn never_falling(rng: &mut Rng) -> Vec<u16> {
    let few: Vec<u16> = (0..1 + rng.below(6)).map(|_| any(rng)).collect();
    let base = rng.below(65_536 - 2 * ROWS) as u16;
    match rng.below(8) {
        0 | 1 => rising(rng),
        2 => in_order(rng, any),
        3 => in_order(rng, |rng| base + rng.below(300) as u16),
        4 => in_order(rng, |rng| rng.pick(&few)),
        5 => vec![base; ROWS],
        6 => in_order(rng, |rng| rng.pick(&[0, 1, 65_534, 65_535])),
        _ => in_order(rng, |rng| {
            let other = any(rng);
            rng.pick(&[0, 65_535, other])
        }),
    }
}

fn joined(levels: &[u16], volumes: &[u16]) -> Vec<Row> {
    let pairs = levels.iter().zip(volumes);
    pairs
        .map(|(&level, &volume)| Row::new(level, volume))
        .collect()
}

/// A table whose levels and volumes rise from each row to the next.
pub fn strict(rng: &mut Rng) -> Vec<Row> {
    joined(&rising(rng), &rising(rng))
}

/// A table that rises up to some row, with all rows behind it equal to that.
pub fn padded(rng: &mut Rng) -> Vec<Row> {
    let mut rows = strict(rng);
    let any = 1 + rng.below(ROWS);
    let last = rng.pick(&[1, 2, 32, 33, ROWS - 1, any, any, any]);
    let row = rows[last - 1];
    rows[last..].fill(row);
    rows
}

/// A table as a table file has one (document 02, wish 10): levels rise and volumes
/// never fall up to this row, which all rows behind it equal.
pub fn climbing(rng: &mut Rng, last: usize) -> Vec<Row> {
    let mut rows = match rng.percent(60) {
        true => strict(rng),
        false => joined(&rising(rng), &never_falling(rng)),
    };
    let row = rows[last - 1];
    rows[last..].fill(row);
    rows
}

/// A table with rows of one level in places, and the volumes rising there.
pub fn with_runs(rng: &mut Rng) -> Vec<Row> {
    let mut levels = rising(rng);
    for _ in 0..4 + rng.below(8) {
        let any = rng.below(ROWS);
        let first = rng.pick(&[any, any, any, 0, 30, 31, ROWS - 2]);
        let length = rng.pick(&[2, 2, 3, 5, 40]).min(ROWS - first);
        let level = levels[first + length - 1];
        levels[first..first + length].fill(level);
    }
    joined(&levels, &rising(rng))
}

/// A table with one rise, somewhere, and at times a little one at the end.
pub fn one_rise(rng: &mut Rng, low: Row, high: Row) -> Vec<Row> {
    let any = 1 + rng.below(ROWS - 1);
    let before = rng.pick(&[1, 31, 32, ROWS - 1, any, any]);
    let mut rows = vec![low; ROWS];
    rows[before..].fill(high);
    if rng.percent(50) && before < ROWS - 1 {
        let more = |number: u16| number.saturating_add(2);
        rows[ROWS - 1] = Row::new(more(high.level), more(high.volume));
    }
    rows
}

/// A table with one rise of nearly all there is, over little or over as much.
pub fn steep(rng: &mut Rng) -> Vec<Row> {
    let low = Row::new(rng.below(3) as u16, rng.below(3) as u16);
    let run = rng.pick(&[1, 2, 3, 65_000, 65_535 - low.level]);
    let rise = rng.pick(&[1, 2, 65_535 - low.volume]);
    let high = Row::new(low.level + run, low.volume + rise);
    one_rise(rng, low, high)
}

/// A table that never falls, of any kind.
pub fn good(rng: &mut Rng) -> Vec<Row> {
    match rng.below(8) {
        0 => strict(rng),
        1 => padded(rng),
        2 => with_runs(rng),
        3 => steep(rng),
        _ => joined(&never_falling(rng), &never_falling(rng)),
    }
}

/// The row that must become another for this number to fall at this step, and at
/// no other. There is none between 0 and 65,535.
pub fn fall(rng: &mut Rng, rows: &[Row], step: usize, of: Of) -> Option<(usize, Row)> {
    let (before, behind) = (of.get(rows[step - 1]), of.get(rows[step]));
    let lower = before > 0 && (behind == 65_535 || rng.percent(50));
    let (place, limit) = match lower {
        true => (step, before),
        false => (step - 1, 65_535 - behind),
    };
    if limit == 0 {
        return None;
    }
    let by = match rng.percent(60) {
        true => 1,
        false => 1 + rng.below(usize::from(limit)) as u16,
    };
    let mut row = rows[place];
    of.set(&mut row, if lower { before - by } else { behind + by });
    Some((place, row))
}

/// A level to ask of a table: at a row, beside it, between it and the next, at
/// the ends and beyond, and wide ones.
pub fn level(rng: &mut Rng, rows: &[Row]) -> u32 {
    let (first, last) = (u32::from(rows[0].level), u32::from(rows[ROWS - 1].level));
    let place = rng.below(ROWS);
    let [at, next] = [place, (place + 1).min(ROWS - 1)].map(|place| u32::from(rows[place].level));
    match rng.below(16) {
        0..=2 => at,
        3 => at + 1,
        4 => at.saturating_sub(1),
        5..=9 => at + rng.below(next.saturating_sub(at) as usize + 1) as u32,
        10 => rng.pick(&[first, last]),
        11 => first.saturating_sub(1),
        12 => last + 1,
        13 => rng.pick(&[0, 65_535, 65_536, u32::MAX]),
        14 => at + (65_536 << rng.below(16)),
        _ => u32::from(any(rng)),
    }
}

/// Each row's level, those beside it, and one between it and the next.
pub fn all_levels(rng: &mut Rng, rows: &[Row]) -> Vec<u32> {
    let mut levels = Vec::new();
    for pair in rows.windows(2) {
        let [at, next] = [pair[0], pair[1]].map(|row| u32::from(row.level));
        let between = at + rng.below(next.saturating_sub(at) as usize + 1) as u32;
        levels.extend([at.saturating_sub(1), at, at + 1, between]);
    }
    let last = u32::from(rows[ROWS - 1].level);
    levels.extend([last.saturating_sub(1), last, last + 1]);
    levels.dedup();
    levels
}
