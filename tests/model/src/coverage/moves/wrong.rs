//! Movers that are wrong in one thing each.

mod judged;
mod kept;
mod words;

use std::borrow::Cow;

use super::Call;
use crate::items::{Item, ITEMS, WORDS};
use crate::streams::FIELDS;

/// A mover's way to move.
pub struct Mover {
    /// Whether it does the move.
    takes: fn(&Call) -> bool,
    /// The number that it refuses a move with.
    number: fn(&Call) -> u8,
    /// The version that it leaves.
    version: fn(&Call) -> [u8; 2],
    /// The word that it gives an item, kept to 16 bits, where it puts it among
    /// all the words, and its bytes in the order in which they lie.
    word: fn(&Call, &Item) -> u32,
    place: fn(&Item) -> usize,
    order: fn([u8; 2]) -> [u8; 2],
    /// What it does besides to a target when done, to one that it refuses, and
    /// to the source when done.
    done: Option<Change>,
    refused: Option<Change>,
    source: Option<Change>,
}

type Change = fn(&Call, &mut [u8]);

pub const RIGHT: Mover = Mover {
    takes: |call| call.faults.is_empty(),
    number: |_| 1,
    version: |call| if call.up { [0, 2] } else { [0, 1] },
    word: |call, item| call.sum(item),
    place: right_place,
    order: |bytes| bytes,
    done: None,
    refused: None,
    source: None,
};

impl Mover {
    /// Whether another number or other bytes come of the move.
    pub fn differs(&self, call: &Call) -> bool {
        if !(self.takes)(call) {
            return (self.number)(call) != call.number
                || changed(self.refused, call, call.target) != call.target_after;
        }
        call.number != 0
            || self.target(call) != call.target_after
            || changed(self.source, call, call.source) != call.source_after
    }

    /// The target when it is done, of which both lengths are right.
    fn target(&self, call: &Call) -> Vec<u8> {
        let mut target = call.target.to_vec();
        target[..WORDS.start].copy_from_slice(&call.source[..WORDS.start]);
        target[3..5].copy_from_slice(&(self.version)(call));
        if call.up {
            target[WORDS].fill(0);
            for item in &ITEMS {
                let word = (self.word)(call, item) as u16;
                let place = WORDS.start + (self.place)(item);
                let bytes = (self.order)(word.to_be_bytes());
                target[place..place + 2].copy_from_slice(&bytes);
            }
        }
        if let Some(done) = self.done {
            done(call, &mut target);
        }
        target
    }
}

/// A buffer with what a mover does to it, if it does anything.
fn changed<'a>(change: Option<Change>, call: &Call, buffer: &'a [u8]) -> Cow<'a, [u8]> {
    let mut buffer = Cow::from(buffer);
    if let Some(change) = change {
        change(call, buffer.to_mut());
    }
    buffer
}

fn right_place(item: &Item) -> usize {
    item.word - WORDS.start
}

const fn takes(takes: fn(&Call) -> bool) -> Mover {
    Mover { takes, ..RIGHT }
}

const fn number(number: fn(&Call) -> u8) -> Mover {
    Mover { number, ..RIGHT }
}

const fn version(version: fn(&Call) -> [u8; 2]) -> Mover {
    Mover { version, ..RIGHT }
}

const fn word(word: fn(&Call, &Item) -> u32) -> Mover {
    Mover { word, ..RIGHT }
}

/// The places of the words, by the command that writes the item.
const fn place(place: fn(&Item) -> usize) -> Mover {
    Mover { place, ..RIGHT }
}

const fn order(order: fn([u8; 2]) -> [u8; 2]) -> Mover {
    Mover { order, ..RIGHT }
}

const fn done(done: Change) -> Mover {
    Mover {
        done: Some(done),
        ..RIGHT
    }
}

const fn refused(refused: Change) -> Mover {
    Mover {
        refused: Some(refused),
        ..RIGHT
    }
}

const fn source(source: Change) -> Mover {
    Mover {
        source: Some(source),
        ..RIGHT
    }
}

/// What is wrong with a mover, the mover, and the moves that must show it.
pub type Wrong = (&'static str, Mover, &'static [char]);

/// All of them, always in the same order.
pub fn all() -> impl Iterator<Item = &'static Wrong> {
    let lists: [&[Wrong]; 3] = [&judged::WRONG, &kept::WRONG, &words::WRONG];
    lists.into_iter().flatten()
}

/// The version from which a move starts, and the lengths of both buffers.
fn from(call: &Call) -> (u8, usize, usize) {
    super::from(call.up)
}

/// The version that is not this one.
fn other(version: u8) -> u8 {
    3 - version
}

/// Where the rows of an error table end.
fn rows_end(table: &[u8]) -> usize {
    1 + 3 * usize::from(table[0])
}

/// Constants without their reserve. Body byte 4 is their first.
fn cleared(constants: &[u8]) -> Vec<u8> {
    let mut cleared = vec![0; constants.len()];
    for (first, last) in FIELDS {
        let field = first - 4..=last - 4;
        cleared[field.clone()].copy_from_slice(&constants[field]);
    }
    cleared
}
