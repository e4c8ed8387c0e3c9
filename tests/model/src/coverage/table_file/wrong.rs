//! Checkers that are wrong in one thing each.

mod frames;
mod rows;
mod writes;

use super::file::{File, Piece};
use crate::tables::{self, Row};

/// A checker's way with a file.
#[derive(Clone, Copy)]
pub struct Checker {
    /// How the number comes about, and the numbers in the order in which they are
    /// judged.
    judges: fn(&Checker, &File) -> u8,
    order: [u8; 4],
    /// The pieces that count, whether one is good, by its place among them, and
    /// whether they are as many as they should be.
    counts: for<'a> fn(&'a File<'a>) -> Vec<&'a Piece<'a>>,
    good: fn(&Piece, usize) -> bool,
    enough: fn(usize) -> bool,
    /// Whether contents are a write, by their frame's place, whether addresses and
    /// tables belong together, and whether an address and a table are ones.
    is_write: fn(&[u8], usize) -> bool,
    alike: fn(&[[u8; 2]]) -> bool,
    address: fn(u8) -> bool,
    table: fn(u8) -> bool,
    /// Whether the parts, in the order of the frames, are all parts.
    parts: fn(&[u8]) -> bool,
    /// The rows in the order in which they are judged, and whether they climb.
    rows: fn(&[&[u8]]) -> Vec<Row>,
    climb: fn(&[Row]) -> bool,
    /// What is given for a number, by the file.
    gives: fn(&File, u8) -> u8,
}

pub const RIGHT: Checker = Checker {
    judges: in_order,
    order: [17, 18, 19, 20],
    counts: |file| file.pieces.iter().collect(),
    good: |piece, _| piece.fault == 0,
    enough: |count| count == 11,
    is_write: |contents, _| contents.len() == 132 && contents[1] == 59,
    alike: |all| all.windows(2).all(|pair| pair[0] == pair[1]),
    address: |address| address != 0,
    table: is_table,
    parts: |parts| (1..=11).all(|part| parts.iter().filter(|other| **other == part).count() == 1),
    rows: by_part,
    climb: climbs,
    gives: |_, number| number,
};

impl Checker {
    pub fn number(&self, file: &File) -> u8 {
        (self.judges)(self, file)
    }

    /// Whether a number is not given, judged of these contents.
    fn passes(&self, number: u8, file: &File, frames: &[&[u8]]) -> bool {
        match number {
            17 => self.takes(file),
            18 => self.are_writes(frames),
            19 => (self.parts)(&parts_of(frames)),
            _ => (self.climb)(&(self.rows)(frames)),
        }
    }

    /// Eleven good frames have 2,959 bytes at the most, so that nothing tells whether
    /// a checker looks at the length of a file as well.
    fn takes(&self, file: &File) -> bool {
        let pieces = (self.counts)(file);
        let good = |(place, piece): (usize, &&Piece)| (self.good)(piece, place);
        (self.enough)(pieces.len()) && pieces.iter().enumerate().all(good)
    }

    fn are_writes(&self, frames: &[&[u8]]) -> bool {
        let all: Vec<[u8; 2]> = frames
            .iter()
            .map(|frame| [byte(frame, 0), byte(frame, 2)])
            .collect();
        let mut writes = frames.iter().enumerate();
        writes.all(|(place, contents)| (self.is_write)(contents, place))
            && (self.alike)(&all)
            && all
                .iter()
                .all(|&[address, table]| (self.address)(address) && (self.table)(table))
    }
}

/// Each number is judged of all frames before the next one is.
fn in_order(checker: &Checker, file: &File) -> u8 {
    let pieces = (checker.counts)(file);
    let frames: Vec<&[u8]> = pieces.iter().map(|piece| &piece.contents[..]).collect();
    let fails = |number: &u8| !checker.passes(*number, file, &frames);
    let number = checker.order.into_iter().find(fails);
    number.map_or(0, |number| (checker.gives)(file, number))
}

/// A byte of the contents, 0 if they have not so many.
fn byte(contents: &[u8], place: usize) -> u8 {
    contents.get(place).copied().unwrap_or(0)
}

fn is_table(table: u8) -> bool {
    matches!(table, 1..=8 | 11..=18)
}

fn parts_of(frames: &[&[u8]]) -> Vec<u8> {
    frames.iter().map(|frame| byte(frame, 3)).collect()
}

/// The rows of contents, as many as there are.
fn rows_of(contents: &[u8]) -> Vec<Row> {
    tables::rows(contents.get(4..).unwrap_or_default())
}

/// The rows in the order of their parts, whichever these are.
fn by_part(frames: &[&[u8]]) -> Vec<Row> {
    let mut frames = frames.to_vec();
    frames.sort_by_key(|frame| byte(frame, 3));
    frames.into_iter().flat_map(rows_of).collect()
}

fn rises(row: Row, next: Row) -> bool {
    row.level < next.level && row.volume <= next.volume
}

/// How many rows rise from the first on.
fn rising(rows: &[Row], rises: fn(Row, Row) -> bool) -> usize {
    let steps = rows.windows(2).take_while(|pair| rises(pair[0], pair[1]));
    rows.len().min(1 + steps.count())
}

/// Whether rows rise as far as they do, and those behind are like this, by the
/// last that rises.
fn climbs_by(rows: &[Row], rises: fn(Row, Row) -> bool, stays: fn(Row, Row) -> bool) -> bool {
    let (up, behind) = rows.split_at(rising(rows, rises));
    behind
        .iter()
        .all(|row| up.last().is_some_and(|last| stays(*last, *row)))
}

fn climbs(rows: &[Row]) -> bool {
    climbs_by(rows, rises, |last, row| last == row)
}

/// What is wrong with a checker, and the checker.
pub type Wrong = (&'static str, Checker);

/// All of them, always in the same order.
pub fn all() -> impl Iterator<Item = &'static Wrong> {
    let lists: [&[Wrong]; 6] = [
        &frames::PIECES,
        &frames::ORDERS,
        &writes::WRITES,
        &writes::PARTS,
        &rows::ROWS,
        &rows::GIVEN,
    ];
    lists.into_iter().flatten()
}
