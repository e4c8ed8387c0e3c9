//! Answerers that are wrong in one thing each.

mod asked;
mod found;
mod judged;
mod read;
mod refused;

use std::borrow::Cow;
use std::sync::LazyLock;

use super::question::Question;
use crate::items::ITEMS;
use crate::quantity::{is_usable, place_of};
use crate::tables::{rows, Row};

/// An answerer's way with a question.
#[derive(Clone, Copy)]
pub struct Answerer {
    /// The checks in the order in which they are made.
    order: [u8; 5],
    usable: fn(&Question) -> bool,
    /// How the table's number is read, as a place among the sixteen, and the level.
    place: fn(u32) -> Option<usize>,
    level: fn(u32) -> u32,
    /// The word of the parts of the table at a place, and its rows.
    word: fn(&[u8], usize) -> u16,
    rows: for<'a> fn(&'a Question, usize) -> Cow<'a, [Row]>,
    /// Whether all parts are held, whether numbers fall, and whether the level is
    /// neither below the rows nor above them.
    whole: fn(&Meant) -> bool,
    falls: fn(&Meant) -> bool,
    has_level: fn(&Meant) -> bool,
    /// The place of the row that is taken, and what is added to its volume.
    find: fn(&Meant) -> usize,
    adds: fn(&Line) -> i64,
    /// What is given with the number of a check that fails.
    refuses: fn(&Meant, u8) -> (u8, u32),
    /// The part or the step that it is wrong in, if there are several.
    of: usize,
}

/// What a question means to an answerer.
pub struct Meant<'a> {
    question: &'a Question<'a>,
    level: u32,
    word: u16,
    rows: Cow<'a, [Row]>,
    of: usize,
}

/// The way from a row to the next, and how far the level is on it.
pub struct Line {
    /// The row's number.
    row: usize,
    volume: i64,
    rise: i64,
    run: i64,
    distance: i64,
}

pub const RIGHT: Answerer = Answerer {
    order: [1, 10, 12, 13, 14],
    usable: |question| is_usable(question.image),
    place: place_of,
    level: |level| level,
    word: word_at,
    rows: rows_at,
    whole: |meant| meant.word == 2047,
    falls: falling,
    has_level: |meant| first(meant) <= meant.level && meant.level <= last(meant),
    find: found,
    adds: |line| line.share(line.rise * line.distance),
    refuses: |_, number| (number, 0),
    of: 0,
};

impl Answerer {
    /// The number and the volume that it gives.
    pub fn answer(&self, question: &Question) -> (u8, u32) {
        let place = (self.place)(question.table);
        let meant = Meant {
            question,
            level: (self.level)(question.level),
            word: place.map_or(0, |place| (self.word)(question.image, place)),
            rows: place.map_or(Cow::default(), |place| (self.rows)(question, place)),
            of: self.of,
        };
        let fails = |&number: &u8| self.fails(number, &meant, place.is_some());
        match self.order.into_iter().find(fails) {
            Some(number) => (self.refuses)(&meant, number),
            None => (0, self.volume(&meant)),
        }
    }

    fn fails(&self, number: u8, meant: &Meant, table: bool) -> bool {
        match number {
            1 => !(self.usable)(meant.question),
            10 => !table,
            // No table, or an image that is too short for it.
            _ if meant.rows.is_empty() => false,
            12 => !(self.whole)(meant),
            13 => (self.falls)(meant),
            _ => !(self.has_level)(meant),
        }
    }

    fn volume(&self, meant: &Meant) -> u32 {
        let place = (self.find)(meant);
        let (Some(&row), next) = (meant.rows.get(place), meant.rows.get(place + 1)) else {
            return 0;
        };
        let next = *next.unwrap_or(&row);
        let line = Line {
            row: place + 1,
            volume: row.volume.into(),
            rise: i64::from(next.volume) - i64::from(row.volume),
            run: i64::from(next.level) - i64::from(row.level),
            distance: (i64::from(meant.level) - i64::from(row.level)).max(0),
        };
        (line.volume + (self.adds)(&line)) as u32
    }
}

impl Line {
    /// A product divided by the rise in level, rounded down.
    fn share(&self, product: i64) -> i64 {
        match self.run {
            0 => 0,
            run => product.div_euclid(run),
        }
    }
}

/// The word that lies at a place of the sixteen, as far as the image goes.
fn word_at(image: &[u8], place: usize) -> u16 {
    let bytes = image.get(17 + 2 * place..19 + 2 * place);
    bytes.map_or(0, |bytes| u16::from_be_bytes([bytes[0], bytes[1]]))
}

/// The rows that lie at a place of the sixteen, if the image has them.
fn rows_at<'a>(question: &'a Question, place: usize) -> Cow<'a, [Row]> {
    if question.place == Some(place) {
        return Cow::Borrowed(&question.rows);
    }
    Cow::Owned(rows(&bytes_at(question.image, place, 1408)))
}

/// So many bytes from where the table of a place begins, if the image has them.
fn bytes_at(image: &[u8], place: usize, count: usize) -> Vec<u8> {
    let offset = ITEMS[place].offset;
    let bytes = image.get(offset..offset + count);
    bytes.unwrap_or_default().to_vec()
}

fn falls(row: Row, next: Row) -> bool {
    next.level < row.level || next.volume < row.volume
}

/// Whether some step is like this, by its number and its two rows.
fn any_step(meant: &Meant, fits: impl Fn(usize, Row, Row) -> bool) -> bool {
    let mut steps = (1..).zip(meant.rows.windows(2));
    steps.any(|(step, pair)| fits(step, pair[0], pair[1]))
}

/// Whether numbers fall anywhere. Of the question's own rows that is known.
fn falling(meant: &Meant) -> bool {
    match meant.rows {
        Cow::Borrowed(_) => meant.question.is_falling,
        Cow::Owned(_) => any_step(meant, |_, row, next| falls(row, next)),
    }
}

/// The levels of the first row and of the last one.
fn first(meant: &Meant) -> u32 {
    meant.rows[0].level.into()
}

fn last(meant: &Meant) -> u32 {
    meant.rows[meant.rows.len() - 1].level.into()
}

/// The place of the last row that is not above the level; of the first row if all
/// are.
fn found(meant: &Meant) -> usize {
    let below = |row: &Row| u32::from(row.level) <= meant.level;
    meant.rows.iter().rposition(below).unwrap_or(0)
}

/// What is wrong with an answerer, and the answerer.
pub type Wrong = (String, Answerer);

/// All of them, always in the same order.
pub fn all() -> &'static [Wrong] {
    static ALL: LazyLock<Vec<Wrong>> = LazyLock::new(|| {
        let mut all = asked::wrong();
        all.extend(read::wrong());
        all.extend(judged::wrong());
        all.extend(refused::wrong());
        all.extend(found::wrong());
        all
    });
    &ALL
}

/// A list of them with their names.
fn named(list: &[(&str, Answerer)]) -> Vec<Wrong> {
    list.iter()
        .map(|&(name, answerer)| (name.to_string(), answerer))
        .collect()
}
