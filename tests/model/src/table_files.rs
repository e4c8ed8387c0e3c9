//! What table files are made of (document 02, wish 10): eleven frames that write
//! a table, and changes to them. A change names the number that a file gets by
//! it, or 0 if it stays on the right side of a limit. Files are drawn here
//! without the help of `table_file`, so a slip in either shows.

mod pieces;
mod rows;
mod writes;

use crate::streams::{either_case, frame, Rng};
use crate::tables::{bytes, climbing, Row, PART_ROWS, ROWS};

pub use self::pieces::{LIMITS, PIECES};
pub use self::rows::{is_inside, TABLES as ROW_CHANGES};
pub use self::writes::{PARTS, WRITES};

/// The numbers of all tables.
pub const TABLE_NUMBERS: [u8; 16] = [1, 2, 3, 4, 5, 6, 7, 8, 11, 12, 13, 14, 15, 16, 17, 18];

/// How the digits from A to F are written.
#[derive(Clone, Copy)]
pub enum Letters {
    Capital,
    Small,
    Either,
}

impl Letters {
    fn spell(self, rng: &mut Rng, frame: Vec<u8>) -> Vec<u8> {
        match self {
            Letters::Capital => frame,
            Letters::Small => frame.to_ascii_lowercase(),
            Letters::Either => either_case(rng, frame),
        }
    }
}

/// A file before its frames are written.
#[derive(Clone)]
pub struct Draft {
    pub address: u8,
    pub table: u8,
    pub rows: Vec<Row>,
    /// The parts in the order of the frames.
    pub order: Vec<u8>,
    pub letters: Letters,
}

/// Where a change is done, by the place of a frame in the file.
#[derive(Clone, Copy, Debug, PartialEq, Eq)]
pub enum Where {
    First,
    Middle,
    Last,
}

impl Where {
    pub const ALL: [Where; 3] = [Where::First, Where::Middle, Where::Last];

    pub fn frame(self, rng: &mut Rng) -> usize {
        match self {
            Where::First => 0,
            Where::Middle => 1 + rng.below(9),
            Where::Last => 10,
        }
    }
}

/// Steps from a row to the next at which a change of rows is done: the first, one
/// inside a part, one from a part to the next, and the last.
pub fn some_steps(rng: &mut Rng) -> [usize; 4] {
    let inside = PART_ROWS * rng.below(11) + 2 + rng.below(PART_ROWS - 3);
    [1, inside, PART_ROWS * (1 + rng.below(10)), ROWS - 1]
}

/// A change of the rows, at a step; of the frames' contents, at a frame; or of the
/// frames as they are written, at a frame too.
#[derive(Clone, Copy)]
pub enum Change {
    Rows(fn(&mut Rng, &mut Draft, usize)),
    Contents(fn(&mut Rng, &mut [Vec<u8>], usize)),
    Pieces(fn(&mut Rng, &mut Vec<Vec<u8>>, usize)),
}

/// What a change is, the number that a file gets by it alone, and the change.
pub type Named = (&'static str, u8, Change);

/// The parts in any order.
pub fn any_order(rng: &mut Rng) -> Vec<u8> {
    let mut parts: Vec<u8> = (1..=11).collect();
    for last in (1..parts.len()).rev() {
        parts.swap(last, rng.below(last + 1));
    }
    parts
}

/// A row up to which a table climbs, half of them about a limit.
pub fn any_last(rng: &mut Rng) -> usize {
    let any = 1 + rng.below(ROWS);
    rng.pick(&[
        any, any, any, any, 1, 2, 31, 32, 33, 64, 320, 321, 350, 351, 352, 352,
    ])
}

/// An address, half of them about a limit.
pub fn any_address(rng: &mut Rng) -> u8 {
    let any = rng.between(1, 255);
    rng.pick(&[any, any, any, any, 1, 2, 10, 58, 59, 127, 128, 254, 255])
}

impl Draft {
    /// A file that is accepted, of any kind.
    pub fn any(rng: &mut Rng) -> Self {
        let last = any_last(rng);
        Draft {
            address: any_address(rng),
            table: rng.pick(&TABLE_NUMBERS),
            rows: climbing(rng, last),
            order: match rng.below(6) {
                0 => (1..=11).collect(),
                1 => (1..=11).rev().collect(),
                _ => any_order(rng),
            },
            letters: rng.pick(&[Letters::Capital, Letters::Small, Letters::Either]),
        }
    }

    /// The contents of the frames, without checksums.
    fn contents(&self) -> Vec<Vec<u8>> {
        let of_part = |&part: &u8| {
            let first = PART_ROWS * (usize::from(part) - 1);
            let rows = bytes(&self.rows[first..first + PART_ROWS]);
            [&[self.address, 59, self.table, part], &rows[..]].concat()
        };
        self.order.iter().map(of_part).collect()
    }

    /// The frames as they are written.
    pub fn pieces(&self, rng: &mut Rng) -> Vec<Vec<u8>> {
        self.pieces_with(rng, &[])
    }

    fn pieces_with(&self, rng: &mut Rng, changes: &[(Change, usize)]) -> Vec<Vec<u8>> {
        let mut draft = self.clone();
        for &(change, at) in changes {
            if let Change::Rows(change) = change {
                change(rng, &mut draft, at);
            }
        }
        let mut contents = draft.contents();
        for &(change, at) in changes {
            if let Change::Contents(change) = change {
                change(rng, &mut contents, at);
            }
        }
        let spell = |contents: &Vec<u8>| draft.letters.spell(rng, frame(contents));
        let mut pieces: Vec<Vec<u8>> = contents.iter().map(spell).collect();
        for &(change, at) in changes {
            if let Change::Pieces(change) = change {
                change(rng, &mut pieces, at);
            }
        }
        pieces
    }

    /// The file with these changes, those of the highest numbers first, so that
    /// none undoes what a lower number is given for.
    pub fn file(&self, rng: &mut Rng, changes: &[(Change, usize)]) -> Vec<u8> {
        self.pieces_with(rng, changes).concat()
    }
}
