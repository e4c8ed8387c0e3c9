//! A question for a volume as it came up.

use crate::coverage::Came;
use crate::quantity::{bytes_of, faults, place_of, word_of};
use crate::streams::ask;
use crate::tables::{falls, rows, Of, Row};

pub struct Question<'a> {
    pub drawn: bool,
    pub image: &'a [u8],
    pub table: u32,
    pub level: u32,
    /// What the model says to it.
    pub number: u8,
    pub volume: u32,
    /// The number of each check that does not hold, judged for itself.
    pub faults: Vec<u8>,
    /// The table's place among the sixteen, if it is one.
    pub place: Option<usize>,
    /// The word of its parts, and its rows, as far as the image has them.
    pub word: u16,
    pub rows: Vec<Row>,
    /// Whether levels or volumes fall in them.
    pub is_falling: bool,
    /// If it is answered, by which row.
    pub found: Option<Found>,
    /// If it is refused 13, where levels fall and where volumes do.
    pub falls: [Vec<usize>; 2],
    /// The call before it and its number, and whether that was given a part of the
    /// same table to write.
    pub before: Option<(char, u8)>,
    pub behind_part: bool,
}

/// What an answer comes from.
pub struct Found {
    /// The row's number, from 1 to 352.
    pub number: usize,
    pub row: Row,
    /// How many rows have its level.
    pub alike: usize,
    pub distance: u32,
    /// The rises in level and in volume to the next row; of row 352 none.
    pub run: u32,
    pub rise: u32,
}

impl Found {
    /// It is the last row that is not above the level.
    fn new(rows: &[Row], level: u32) -> Option<Self> {
        let above = rows.iter().position(|row| u32::from(row.level) > level);
        let number = above.unwrap_or(rows.len());
        let row = *rows.get(number.checked_sub(1)?)?;
        let next = rows.get(number).copied().unwrap_or(row);
        Some(Found {
            number,
            row,
            alike: rows.iter().filter(|each| each.level == row.level).count(),
            distance: level - u32::from(row.level),
            run: u32::from(next.level) - u32::from(row.level),
            rise: u32::from(next.volume) - u32::from(row.volume),
        })
    }

    pub fn product(&self) -> u32 {
        self.rise * self.distance
    }

    /// What the division leaves.
    pub fn rest(&self) -> u32 {
        self.product().checked_rem(self.run).unwrap_or(0)
    }
}

impl<'a> Question<'a> {
    pub fn new(came: &Came<'a>) -> Option<Self> {
        if came.call != 'A' {
            return None;
        }
        let number_at = |place: usize| {
            let bytes = came.input[place..place + 4].try_into();
            u32::from_be_bytes(bytes.expect("8 bytes"))
        };
        let (image, table, level) = (came.image, number_at(0), number_at(4));
        let rows = bytes_of(image, table).map_or(Vec::new(), rows);
        Some(Question {
            drawn: came.drawn,
            image,
            table,
            level,
            number: came.number,
            volume: came.line.rsplit(' ').next()?.parse().ok()?,
            faults: faults(image, table, level),
            place: place_of(table),
            word: word_of(image, table).unwrap_or(0),
            found: match came.number {
                0 => Found::new(&rows, level),
                _ => None,
            },
            falls: match came.number {
                13 => [Of::Level, Of::Volume].map(|of| falls(&rows, of)),
                _ => [Vec::new(), Vec::new()],
            },
            is_falling: !rows.is_sorted_by_key(|row| row.level)
                || !rows.is_sorted_by_key(|row| row.volume),
            rows,
            before: came.before.map(|&(letter, number, _)| (letter, number)),
            behind_part: came
                .before
                .is_some_and(|(_, _, frame)| writes_part(frame, table)),
        })
    }

    /// Whether it is answered, and by a row like this.
    pub fn is_found(&self, fits: impl Fn(&Found) -> bool) -> bool {
        self.found.as_ref().is_some_and(fits)
    }

    /// Whether it is refused with this number, and all checks behind hold.
    pub fn is_alone(&self, number: u8) -> bool {
        self.faults == [number]
    }

    /// Whether it is refused with the first of these, and the other would be given
    /// else.
    pub fn has_both(&self, first: u8, other: u8) -> bool {
        self.number == first && self.faults.contains(&other)
    }

    /// The levels of row 1 and of row 352.
    pub fn ends(&self) -> Option<[u32; 2]> {
        let ends = [self.rows.first()?, self.rows.last()?];
        Some(ends.map(|row| u32::from(row.level)))
    }
}

/// Whether a frame writes a part of this table, by its characters.
fn writes_part(frame: &[u8], table: u32) -> bool {
    let Ok(table) = u8::try_from(table) else {
        return false;
    };
    // Address, command and table are six characters behind the first.
    frame.len() == 269 && frame[3..7] == ask(1, 59, &[table])[3..7]
}
