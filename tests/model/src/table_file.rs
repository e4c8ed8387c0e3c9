//! Document 02, wish 10: checking a table file before it is sent. A file's bytes
//! come in and a number goes out; neither an image nor an output is there to be
//! touched. The checks stand in the order of their numbers, and each is made of
//! the whole file before the next one begins.

pub mod told;

use crate::block;
use crate::tables::{self, Row};

const FILE_MAX: usize = 4096;
const FRAMES: usize = 11;
/// Contents of a frame, its checksum left off: those of the longest one are just
/// as long as those of a write.
const CONTENTS_MAX: usize = 132;
const ROWS_BYTES: usize = 128;

/// Why a file is refused; the value of each is the number given.
#[derive(Clone, Copy, Debug, PartialEq, Eq)]
pub enum Refusal {
    Frames = 17,
    Writes = 18,
    Parts = 19,
    Rows = 20,
}

/// The number that a file gets, 0 if it is accepted.
pub fn number(file: &[u8]) -> u8 {
    match check(file) {
        Ok(()) => 0,
        Err(refusal) => refusal as u8,
    }
}

pub fn check(file: &[u8]) -> Result<(), Refusal> {
    let frames = frames(file).ok_or(Refusal::Frames)?;
    let writes = writes(&frames).ok_or(Refusal::Writes)?;
    let rows = rows(&writes).ok_or(Refusal::Parts)?;
    match climb(&rows) {
        true => Ok(()),
        false => Err(Refusal::Rows),
    }
}

/// The contents of the eleven frames that the file is cut into after each 0Ah. A
/// last piece without 0Ah is a piece too, and as a frame it fails.
fn frames(file: &[u8]) -> Option<Vec<Vec<u8>>> {
    if file.len() > FILE_MAX {
        return None;
    }
    let pieces = file.split_inclusive(|&byte| byte == b'\n');
    let frames: Vec<Vec<u8>> = pieces.map(contents).collect::<Option<_>>()?;
    (frames.len() == FRAMES).then_some(frames)
}

/// The contents of a piece that passes checks 3 to 6. With this output check 2,
/// which taking apart makes as well, is always passed.
fn contents(piece: &[u8]) -> Option<Vec<u8>> {
    let mut output = [0; CONTENTS_MAX];
    let length = block::take_apart(piece, &mut output).ok()?;
    Some(output[..length].to_vec())
}

/// A frame that writes a part of a table.
struct Write<'a> {
    address: u8,
    table: u8,
    part: u8,
    rows: &'a [u8],
}

/// All frames as writes of one table to one address. The part is judged later.
fn writes(frames: &[Vec<u8>]) -> Option<Vec<Write<'_>>> {
    let writes: Vec<Write> = frames
        .iter()
        .map(|frame| write(frame))
        .collect::<Option<_>>()?;
    let first = writes.first()?;
    let alike = |write: &Write| write.address == first.address && write.table == first.table;
    let is_right =
        first.address != 0 && matches!(first.table, 1..=8 | 11..=18) && writes.iter().all(alike);
    is_right.then_some(writes)
}

/// A frame of command 59 with its length.
fn write(contents: &[u8]) -> Option<Write<'_>> {
    match *contents {
        [address, 59, table, part, ref rows @ ..] if rows.len() == ROWS_BYTES => Some(Write {
            address,
            table,
            part,
            rows,
        }),
        _ => None,
    }
}

/// All rows of the table, in the order of their parts. There are eleven writes,
/// so that no part is missing where none is there twice.
fn rows(writes: &[Write]) -> Option<Vec<Row>> {
    let mut parts = [None; FRAMES];
    for write in writes {
        let place = usize::from(write.part).checked_sub(1)?;
        let part = parts.get_mut(place)?;
        if part.replace(write.rows).is_some() {
            return None;
        }
    }
    let bytes: Vec<&[u8]> = parts.into_iter().flatten().collect();
    Some(tables::rows(&bytes.concat()))
}

/// Whether there is a row n up to which levels rise and volumes never fall, and
/// which all rows behind it equal. It may be the first one or the last one.
fn climb(rows: &[Row]) -> bool {
    let rises = |pair: &[Row]| pair[0].level < pair[1].level && pair[0].volume <= pair[1].volume;
    (1..=rows.len()).any(|n| {
        let (to_n, behind) = rows.split_at(n);
        to_n.windows(2).all(rises) && behind.iter().all(|row| *row == to_n[n - 1])
    })
}
