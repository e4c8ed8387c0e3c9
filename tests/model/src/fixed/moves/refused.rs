//! What a move refuses, and what is just not refused yet: each thing that is
//! judged is changed on an image with something in every item, and is right
//! again before the next.

use super::{beside, each, Way, DOWN, SUMS, UP};
use crate::fixed::{Change, Session, Step};
use crate::items::ITEMS;
use crate::probe::IMAGE_ROOM;

pub fn sessions() -> Vec<Session> {
    let of = |name, way, steps: fn(Way) -> Vec<Step>| Session::new(name, steps(way));
    vec![
        of("moves, heads, up", UP, heads),
        of("moves, heads, down", DOWN, heads),
        of("moves, row counts, up", UP, row_counts),
        of("moves, row counts, down", DOWN, row_counts),
        of("moves, parts held, up", UP, parts_held),
        of("moves, parts held, down", DOWN, parts_held),
        of("moves, lengths, up", UP, lengths),
        of("moves, lengths, down", DOWN, lengths),
    ]
}

/// The image buffer when `each` has been laid out in it.
fn picture(way: Way) -> Vec<u8> {
    let mut image = vec![0; IMAGE_ROOM];
    for change in each(way) {
        if let Change::Bytes(offset, bytes) = change {
            image[offset..offset + bytes.len()].copy_from_slice(&bytes);
        }
    }
    image
}

/// Moves of one image that is changed for each of them.
struct Trial {
    way: Way,
    good: Vec<u8>,
    steps: Vec<Step>,
    /// What is changed back before the next.
    back: Vec<Change>,
}

impl Trial {
    /// The image as it is, which is moved.
    fn new(way: Way) -> Self {
        let step = way.done("nothing wrong", &SUMS).after(&each(way));
        Trial {
            way,
            good: picture(way),
            steps: vec![step.after(&beside(way.target, 0x00))],
            back: Vec::new(),
        }
    }

    /// With these bytes there. Each target is full of another byte.
    fn with(&mut self, step: Step, offset: usize, bytes: &[u8]) {
        let byte = self.steps.len() as u8;
        let step = step
            .after(&self.back)
            .after_change(offset, bytes)
            .after(&beside(self.way.target, byte));
        let good = self.good[offset..offset + bytes.len()].to_vec();
        self.back = vec![Change::Bytes(offset, good)];
        self.steps.push(step);
    }

    fn refused(&mut self, rule: &'static str, offset: usize, bytes: &[u8]) {
        self.with(self.way.refused(rule), offset, bytes);
    }

    fn done(&mut self, rule: &'static str, offset: usize, bytes: &[u8], words: &[u16; 32]) {
        self.with(self.way.done(rule, words), offset, bytes);
    }

    /// All is right again.
    fn ended(mut self) -> Vec<Step> {
        let step = self.way.done("right again", &SUMS).after(&self.back);
        self.steps.push(step.after(&beside(self.way.target, 0xFF)));
        self.steps
    }
}

/// Both versions are tried in both ways.
const VERSIONS: [[u8; 2]; 13] = [
    [0, 0],
    [0, 1],
    [0, 2],
    [0, 3],
    [1, 0],
    [1, 1],
    [1, 2],
    [2, 0],
    [2, 1],
    [2, 2],
    [0xFF, 1],
    [0x80, 2],
    [0, 0xFF],
];

fn heads(way: Way) -> Vec<Step> {
    let mut trial = Trial::new(way);
    for (offset, letter) in b"IZK".iter().enumerate() {
        for byte in [0, letter ^ 0x20, letter + 1] {
            trial.refused("mark", offset, &[byte]);
        }
    }
    trial.refused("mark", 0, b"ZIK");
    trial.refused("mark", 0, b"SU5");
    for version in VERSIONS {
        match version {
            [0, low] if low == way.version => trial.done("its version", 3, &version, &SUMS),
            _ => trial.refused("another version", 3, &version),
        }
    }
    trial.refused("address 0", 5, &[0]);
    for address in [1, 2, 0x7F, 0x80, 0xCE, 0xFF] {
        trial.done("any other address", 5, &[address], &SUMS);
    }
    // Mask, mode and clock are kept and not judged.
    for byte in [0x00, 0x01, 0x7F, 0x80, 0xFF] {
        trial.done("not judged", 6, &[byte; 11], &SUMS);
    }
    trial.ended()
}

fn row_counts(way: Way) -> Vec<Step> {
    let mut trial = Trial::new(way);
    for (place, item) in ITEMS.iter().enumerate().skip(24) {
        // The count is 3 where nothing is changed.
        let mut words = SUMS;
        words[place] = words[place] - 3 + 21;
        trial.done("21 rows", item.offset, &[21], &words);
        trial.refused("22 rows", item.offset, &[22]);
        trial.refused("255 rows", item.offset, &[255]);
        let behind = u16::from(trial.good[item.offset + 1]);
        words[place] = SUMS[place] - behind + 255;
        trial.done("not judged", item.offset + 1, &[255], &words);
    }
    trial.ended()
}

fn parts_held(way: Way) -> Vec<Step> {
    let mut trial = Trial::new(way);
    for table in 0..16 {
        let offset = 17 + 2 * table;
        trial.done("2047", offset, &[0x07, 0xFF], &SUMS);
        trial.refused("2048", offset, &[0x08, 0x00]);
        trial.refused("32,768", offset, &[0x80, 0x00]);
        trial.refused("65,535", offset, &[0xFF, 0xFF]);
    }
    trial.ended()
}

/// Lengths on both sides of either version's, and the ends.
const LENGTHS: [usize; 11] = [
    0, 1, 5, 6, 23_752, 23_753, 23_754, 23_816, 23_817, 23_818, 24_000,
];

/// Of the source, then of the target, then of both; then with the other version.
fn lengths(way: Way) -> Vec<Step> {
    let right = (way.source, way.target);
    let mut steps = Vec::new();
    let mut with = |(source, target), step: Step| {
        let step = step.after(&[Change::Length(source)]);
        steps.push(step.after(&beside(target, 0xC3)));
    };
    with(right, way.done("both right", &SUMS).after(&each(way)));
    for length in LENGTHS.into_iter().filter(|&length| length != way.source) {
        with((length, way.target), way.refused("the source's length"));
    }
    for length in LENGTHS.into_iter().filter(|&length| length != way.target) {
        with((way.source, length), way.refused("the target's length"));
    }
    for lengths in both_wrong(way) {
        with(lengths, way.refused("both lengths"));
    }
    with(right, way.done("both right again", &SUMS));
    let other = way.refused("the other version");
    with(right, other.after_change(4, &[3 - way.version]));
    for lengths in both_wrong(way) {
        with(lengths, way.refused("the other version, both lengths"));
    }
    steps
}

/// The other way round, one of them as the other should be, both off by as
/// much, and both at an end.
fn both_wrong(way: Way) -> [(usize, usize); 7] {
    [
        (way.target, way.source),
        (way.target, 0),
        (0, way.source),
        (way.source + 1, way.target + 1),
        (way.source - 1, way.target - 1),
        (0, 0),
        (24_000, 24_000),
    ]
}
