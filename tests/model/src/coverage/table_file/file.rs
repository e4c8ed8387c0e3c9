//! A table file as it came up, with what can be read of it.

use crate::coverage::Came;
use crate::tables::{rows, Row, PART_ROWS};

/// Where a write has these, among its contents.
pub const ADDRESS: usize = 0;
pub const COMMAND: usize = 1;
pub const TABLE: usize = 2;
pub const PART: usize = 3;

pub struct File<'a> {
    pub bytes: &'a [u8],
    /// What the model says to it.
    pub number: u8,
    pub pieces: Vec<Piece<'a>>,
    /// If it comes to its rows: these, in the order of their parts.
    pub rows: Vec<Row>,
    /// The steps of these at which something happens.
    pub steps: Steps,
    /// For each of the numbers 17 to 20, judged for itself, the place of the frame
    /// that it is given for, as far as there are eleven pieces and that can be said.
    pub culprits: [Option<usize>; 4],
}

pub struct Piece<'a> {
    pub text: &'a [u8],
    /// The number of the check of a frame that it fails, 0 if it passes all.
    pub fault: u8,
    /// What stands between its first byte and its end says, the checksum left off.
    /// Where that is no digit, it is read by the published rule, and a half without
    /// another half is left out.
    pub contents: Vec<u8>,
}

/// Steps from a row to the next, by their numbers: 1 from row 1 to row 2.
#[derive(Default)]
pub struct Steps {
    /// Levels fall, volumes fall, volumes alone rise.
    pub level_falls: Vec<usize>,
    pub volume_falls: Vec<usize>,
    pub volume_alone: Vec<usize>,
    /// Both are equal, and anything else behind such a step.
    pub repeats: Vec<usize>,
    pub behind_repeats: Vec<usize>,
    /// Levels rise by 1, and levels rise while volumes stay.
    pub by_1: Vec<usize>,
    pub level_alone: Vec<usize>,
}

impl Steps {
    fn of(rows: &[Row]) -> Self {
        let mut steps = Steps::default();
        for (step, pair) in (1..).zip(rows.windows(2)) {
            let (row, next) = (pair[0], pair[1]);
            let mut note = |list: fn(&mut Steps) -> &mut Vec<usize>, fits: bool| {
                if fits {
                    list(&mut steps).push(step);
                }
            };
            note(|steps| &mut steps.level_falls, next.level < row.level);
            note(|steps| &mut steps.volume_falls, next.volume < row.volume);
            let stays = next.level == row.level;
            note(
                |steps| &mut steps.volume_alone,
                stays && next.volume > row.volume,
            );
            note(|steps| &mut steps.repeats, next == row);
            let rises = next.level > row.level;
            note(
                |steps| &mut steps.by_1,
                rises && next.level - row.level == 1,
            );
            note(
                |steps| &mut steps.level_alone,
                rises && next.volume == row.volume,
            );
            if next != row && steps.repeats.last().is_some() {
                steps.behind_repeats.push(step);
            }
        }
        steps
    }

    /// All steps for which 20 is given.
    pub fn wrong(&self) -> Vec<usize> {
        let lists = [&self.level_falls, &self.volume_falls, &self.volume_alone];
        let mut wrong: Vec<usize> = lists.into_iter().flatten().copied().collect();
        wrong.extend(&self.behind_repeats);
        wrong.sort();
        wrong.dedup();
        wrong
    }
}

impl<'a> Piece<'a> {
    fn new(text: &'a [u8]) -> Self {
        let digits = text.get(1..).unwrap_or_default();
        let digits = digits.strip_suffix(b"\n").unwrap_or(digits);
        let digits = digits.strip_suffix(b"\r").unwrap_or(digits);
        let mut contents: Vec<u8> = digits.chunks_exact(2).map(byte_of).collect();
        let total = contents
            .iter()
            .fold(0u8, |sum, &byte| sum.wrapping_add(byte));
        contents.pop();
        let is_frame = text.first() == Some(&b':') && text.ends_with(b"\r\n");
        let fault = match text.len() {
            9..=269 if text.len().is_multiple_of(2) => 3,
            9..=269 if !is_frame => 4,
            9..=269 if !digits.iter().all(u8::is_ascii_hexdigit) => 5,
            9..=269 if total != 0 => 6,
            9..=269 => 0,
            _ => 3,
        };
        Piece {
            text,
            fault,
            contents,
        }
    }

    /// A byte of the contents, if they have so many.
    pub fn byte(&self, place: usize) -> Option<u8> {
        self.contents.get(place).copied()
    }

    /// The rows of a write, as many as there are.
    pub fn rows(&self) -> Vec<Row> {
        rows(self.contents.get(4..).unwrap_or_default())
    }
}

/// Two characters by the published rule, for small letters as for capitals.
fn byte_of(pair: &[u8]) -> u8 {
    let half = |character: u8| match character.to_ascii_uppercase() {
        character @ 0..=57 => character.wrapping_sub(48) & 15,
        character => (character - 55) & 15,
    };
    half(pair[0]) << 4 | half(pair[1])
}

impl<'a> File<'a> {
    pub fn new(came: &Came<'a>) -> Option<Self> {
        (came.call == 'C').then(|| File::of(came.input, came.number))
    }

    pub fn of(bytes: &'a [u8], number: u8) -> Self {
        let pieces = bytes.split_inclusive(|&byte| byte == b'\n').map(Piece::new);
        let mut file = File {
            bytes,
            number,
            pieces: pieces.collect(),
            rows: Vec::new(),
            steps: Steps::default(),
            culprits: [None; 4],
        };
        if matches!(number, 0 | 20) {
            let mut parts: Vec<&Piece> = file.pieces.iter().collect();
            parts.sort_by_key(|piece| piece.byte(PART));
            file.rows = parts.iter().flat_map(|piece| piece.rows()).collect();
            file.steps = Steps::of(&file.rows);
        }
        if file.pieces.len() == 11 {
            file.culprits = culprits(&file.pieces);
        }
        file
    }

    /// What one byte of the contents is in every frame, if it is the same in all.
    pub fn of_all(&self, byte: usize) -> Option<u8> {
        let first = self.pieces.first()?.byte(byte)?;
        let alike = |piece: &Piece| piece.byte(byte) == Some(first);
        self.pieces.iter().all(alike).then_some(first)
    }

    /// If that is the same in all frames but one: the place of this one, what it
    /// has, and what the others have.
    pub fn of_one(&self, byte: usize) -> Option<(usize, Option<u8>, u8)> {
        let all = bytes(&self.pieces, byte);
        let usual = usual(&all)?;
        let mut others = (0..all.len()).filter(|&place| all[place] != Some(usual));
        let place = others.next()?;
        others.next().is_none().then(|| (place, all[place], usual))
    }

    /// The place of the only piece that fails a check of a frame, and the check.
    pub fn one_bad(&self) -> Option<(usize, u8)> {
        let mut bad = self
            .pieces
            .iter()
            .enumerate()
            .filter(|(_, piece)| piece.fault != 0);
        let (place, piece) = bad.next()?;
        bad.next().is_none().then_some((place, piece.fault))
    }

    pub fn good(&self) -> usize {
        self.pieces.iter().filter(|piece| piece.fault == 0).count()
    }

    /// The parts of the frames in their order.
    pub fn parts(&self) -> Vec<Option<u8>> {
        bytes(&self.pieces, PART)
    }

    /// The row up to which an accepted file climbs, from 1 to 352.
    pub fn last(&self) -> usize {
        match self.number {
            0 => self.rows.len() - self.steps.repeats.len(),
            _ => 0,
        }
    }

    /// The frames' rows in the order of the file, if it comes to them.
    pub fn rows_of_file(&self) -> Vec<Row> {
        match self.rows.is_empty() {
            true => Vec::new(),
            false => self.pieces.iter().flat_map(|piece| piece.rows()).collect(),
        }
    }
}

/// One byte of the contents of each piece, as far as they have it.
pub fn bytes(pieces: &[Piece], byte: usize) -> Vec<Option<u8>> {
    pieces.iter().map(|piece| piece.byte(byte)).collect()
}

/// What most have; if two are as many, the one that comes first.
fn usual(all: &[Option<u8>]) -> Option<u8> {
    let count = |value: &Option<u8>| all.iter().filter(|other| *other == value).count();
    let most = all.iter().map(count).max()?;
    *all.iter().find(|value| count(value) == most)?
}

fn culprits(pieces: &[Piece]) -> [Option<usize>; 4] {
    let [address, table] = [ADDRESS, TABLE].map(|byte| usual(&bytes(pieces, byte)));
    let is_table = |table: Option<u8>| matches!(table, Some(1..=8 | 11..=18));
    let no_write = |piece: &Piece| {
        piece.contents.len() != 132
            || piece.byte(COMMAND) != Some(59)
            || piece.byte(ADDRESS) != address
            || piece.byte(ADDRESS) == Some(0)
            || piece.byte(TABLE) != table
            || !is_table(piece.byte(TABLE))
    };
    let parts = bytes(pieces, PART);
    let no_part = |place: &usize| {
        let part = parts[*place];
        !matches!(part, Some(1..=11)) || parts[..*place].contains(&part)
    };
    let falls = |piece: &Piece| {
        let rows = piece.rows();
        let fall = |pair: &[Row]| pair[1].level < pair[0].level || pair[1].volume < pair[0].volume;
        rows.len() == PART_ROWS && rows.windows(2).any(fall)
    };
    [
        pieces.iter().position(|piece| piece.fault != 0),
        pieces.iter().position(no_write),
        (0..pieces.len()).find(no_part),
        pieces.iter().position(falls),
    ]
}
