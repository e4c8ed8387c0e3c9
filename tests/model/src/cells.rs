//! The 195 cells of document 01, and what a frame does to them, told from its
//! bytes, the position of the switch and the block's address. On a usable image
//! and with an output of 269 bytes or more nothing else decides whether it is
//! refused. The rules stand here once more and nothing is taken from `block`, so
//! a slip in either shows.

use std::ops::Range;

use crate::block::Switch;
use crate::items::{self, sum, Item, WORDS};
use crate::streams::{rung, CLOCK, FIELDS, WRITING};

#[derive(Clone, Copy, Debug, PartialEq, Eq, PartialOrd, Ord)]
pub enum Cell {
    Mask,
    Mode,
    Clock,
    /// By channel.
    Constants(u8),
    /// An error table by its number.
    Errors(u8),
    /// By table and part. Its bit belongs to it; the signature's word of the
    /// table is no cell (document 02, wish 7).
    Part(u8, u8),
}

impl Cell {
    /// All of them.
    pub fn all() -> impl Iterator<Item = Cell> {
        let tables = (1..=8).chain(11..=18);
        let parts = tables.flat_map(|table| (1..=11).map(move |part| Cell::Part(table, part)));
        [Cell::Mask, Cell::Mode, Cell::Clock]
            .into_iter()
            .chain((0..=7).map(Cell::Constants))
            .chain((1..=8).map(Cell::Errors))
            .chain(parts)
    }

    /// The item whose signature counts its bytes, if there is one.
    pub fn item(self) -> Option<&'static Item> {
        match self {
            Cell::Mask | Cell::Mode | Cell::Clock => None,
            Cell::Constants(channel) => items::item(53, channel),
            Cell::Errors(number) => items::item(62, number),
            Cell::Part(table, _) => items::item(59, table),
        }
    }

    /// Where its bytes lie. The bit of a part is not among them.
    pub fn place(self) -> Range<usize> {
        let (first, bytes) = match (self, self.item()) {
            (Cell::Part(_, part), Some(table)) => (table.offset + 128 * usize::from(part - 1), 128),
            (_, Some(item)) => (item.offset, item.bytes),
            (Cell::Mode, _) => (7, 1),
            (Cell::Clock, _) => (8, 9),
            (_, None) => (6, 1), // the mask
        };
        first..first + bytes
    }

    /// The byte in which the bit of a part lies, and the bit. The words of the
    /// parts held stand in a row as the signatures do, high byte first.
    pub fn bit(self) -> Option<(usize, u8)> {
        let (Cell::Part(_, part), Some(table)) = (self, self.item()) else {
            return None;
        };
        let high = 17 + table.word - WORDS.start;
        match part {
            1..=8 => Some((high + 1, 1 << (part - 1))),
            _ => Some((high, 1 << (part - 9))),
        }
    }
}

/// What a frame does to the cells; if it is refused, nothing.
#[derive(Clone, Debug, Default, PartialEq, Eq)]
pub struct Deed {
    pub reads: Vec<Cell>,
    /// The cell that it writes, and the bytes that this then holds.
    pub writes: Option<(Cell, Vec<u8>)>,
}

impl Deed {
    /// Of a frame that is served in this position of the switch by the block of
    /// this address.
    pub fn new(switch: Switch, address: u8, frame: &[u8]) -> Self {
        let accepted = body(frame).filter(|body| {
            let (command, data) = (body[1], &body[2..body.len() - 1]);
            let sealed = switch == Switch::Sealed && WRITING.contains(&command);
            sum(body).is_multiple_of(256) && body[0] == address && !sealed && good(command, data)
        });
        accepted.and_then(|body| named(&body)).unwrap_or_default()
    }

    /// What a frame names, accepted or not: its checksum, its address and its
    /// values are not judged, but its length is, and each number of an item.
    pub fn meant(frame: &[u8]) -> Self {
        body(frame)
            .and_then(|body| named(&body))
            .unwrap_or_default()
    }

    /// The cell that it writes.
    pub fn written(&self) -> Option<Cell> {
        self.writes.as_ref().map(|&(cell, _)| cell)
    }

    /// Whether it reads or writes this cell.
    pub fn touches(&self, cell: Cell) -> bool {
        self.written() == Some(cell) || self.reads.contains(&cell)
    }

    /// Whether one writes a cell that the other reads or writes.
    pub fn clashes(&self, other: &Deed) -> bool {
        let meets = |one: &Deed, two: &Deed| one.written().is_some_and(|cell| two.touches(cell));
        meets(self, other) || meets(other, self)
    }
}

/// The body of a frame whose length, ends and digits are right.
fn body(frame: &[u8]) -> Option<Vec<u8>> {
    let digits = frame.strip_prefix(b":")?.strip_suffix(b"\r\n")?;
    if !(9..=269).contains(&frame.len()) || frame.len().is_multiple_of(2) {
        return None;
    }
    let half = |character: u8| char::from(character).to_digit(16);
    let byte = |pair: &[u8]| Some((16 * half(pair[0])? + half(pair[1])?) as u8);
    digits.chunks_exact(2).map(byte).collect()
}

/// The cells that a body names, if its command is served and its length and the
/// numbers in it are right.
fn named(body: &[u8]) -> Option<Deed> {
    let reads = |reads: Vec<Cell>| Deed {
        reads,
        writes: None,
    };
    let writes = |cell, bytes: &[u8]| Deed {
        reads: Vec::new(),
        writes: Some((cell, bytes.to_vec())),
    };
    Some(match (body[1], &body[2..body.len() - 1]) {
        (50, []) => reads(vec![Cell::Mask]),
        (78, []) => reads(vec![Cell::Clock]),
        (54 | 55, &[channel @ 0..=7]) => reads(vec![Cell::Constants(channel)]),
        (63 | 64, &[number @ 1..=8]) => reads(vec![Cell::Errors(number)]),
        (60, &[table, part @ 1..=11]) if is_table(table) => reads(vec![Cell::Part(table, part)]),
        (61, &[table]) if is_table(table) => {
            reads((1..=11).map(|part| Cell::Part(table, part)).collect())
        }
        (51, mask @ [_]) => writes(Cell::Mask, mask),
        (76, mode @ [_]) => writes(Cell::Mode, mode),
        (77, clock) if clock.len() == 9 => writes(Cell::Clock, clock),
        (53, [channel @ 0..=7, cell @ ..]) if cell.len() == 83 => {
            writes(Cell::Constants(*channel), cell)
        }
        (59, [table, part @ 1..=11, rows @ ..]) if is_table(*table) && rows.len() == 128 => {
            writes(Cell::Part(*table, *part), rows)
        }
        (62, [number @ 1..=8, table @ ..]) if is_counted(table) => {
            let mut cell = table.to_vec();
            cell.resize(64, 0); // rows past the count are stored as 0
            writes(Cell::Errors(*number), &cell)
        }
        _ => return None,
    })
}

fn is_table(number: u8) -> bool {
    matches!(number, 1..=8 | 11..=18)
}

/// Whether a count of rows is followed by as many, 1 to 21.
fn is_counted(table: &[u8]) -> bool {
    let count = table.first().copied().unwrap_or(0);
    (1..=21).contains(&count) && table.len() == 1 + 3 * usize::from(count)
}

/// Whether the values of a command whose length is right keep their rules.
fn good(command: u8, data: &[u8]) -> bool {
    match command {
        53 => (4..data.len() + 3).all(|byte| match byte {
            7 => (1..=13).contains(&data[4]),
            _ => data[byte - 3] == 0 || is_field(byte),
        }),
        62 => {
            let rows = data.get(2..).unwrap_or_default().chunks(3);
            rows.map(|row| rung(row[0]))
                .is_sorted_by(|earlier, later| earlier < later)
        }
        76 => matches!(data, [0x00] | [0xFF]),
        77 => {
            let mut limits = data.iter().zip(CLOCK);
            limits.all(|(byte, (low, high))| (low..=high).contains(byte))
        }
        _ => true,
    }
}

/// Whether a body byte of the constants carries a field and is no reserve.
fn is_field(byte: usize) -> bool {
    let mut spans = FIELDS.iter();
    spans.any(|(first, last)| (first..=last).contains(&&byte))
}
