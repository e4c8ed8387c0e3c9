//! Blocks that are wrong in one thing each when they are given a list.

mod shown;
mod stored;

use crate::cells::{Cell, Deed};
use crate::coverage::checksum::body;
use crate::items::{sum, WORDS};
use crate::order::lists::List;
use crate::streams::ask;

/// A frame of a list that a block is about to serve.
pub struct Step<'a> {
    list: &'a List,
    /// What each frame names, accepted or not.
    meant: &'a [Deed],
    place: usize,
    /// The frames that it has served of the list, by their places, and its
    /// replies to them.
    before: &'a [usize],
    replies: &'a [Vec<u8>],
    /// Its image.
    image: &'a [u8],
}

impl Step<'_> {
    fn frame(&self) -> &[u8] {
        &self.list.served[self.place].frame
    }

    /// The right number, and whether that is 0.
    fn number(&self) -> u8 {
        self.list.served[self.place].number
    }

    fn accepted(&self) -> bool {
        self.number() == 0
    }

    /// The cell that it writes, or would if it were not refused.
    fn cell(&self) -> Option<Cell> {
        self.meant[self.place].written()
    }

    /// How often the cell has been written before.
    fn writes(&self) -> usize {
        let deeds = self.before.iter().map(|&place| &self.list.deeds[place]);
        let written = deeds.filter_map(|deed| deed.written());
        written.filter(|&cell| self.cell() == Some(cell)).count()
    }

    fn again(&self) -> bool {
        self.writes() > 0
    }

    /// Whether the cell was read right after it was written, if it was written.
    fn read_since(&self) -> bool {
        let deeds = self.before.iter().map(|&place| &self.list.deeds[place]);
        let mut touching = deeds.filter(|deed| self.cell().is_some_and(|cell| deed.touches(cell)));
        touching
            .next_back()
            .is_some_and(|deed| deed.writes.is_none())
    }

    /// Where an equal frame stands among those before, if one does.
    fn equal(&self) -> Option<usize> {
        let mut before = self.before.iter();
        before.position(|&place| self.list.served[place].frame == self.frame())
    }

    /// Whether a frame for the same cell was refused before.
    fn refused_before(&self) -> bool {
        self.before.iter().any(|&place| {
            let refused = self.list.served[place].number != 0;
            refused && self.meant[place].written() == self.cell()
        })
    }

    /// Whether the bit of the part that it writes is set.
    fn is_held(&self) -> bool {
        let bit = self.cell().and_then(Cell::bit);
        bit.is_some_and(|(byte, bit)| self.image[byte] & bit > 0)
    }

    /// The right reply on this image, without its last two bytes, to a frame that
    /// is accepted.
    fn reply_on(&self, image: &[u8]) -> Vec<u8> {
        let body = body(self.frame());
        let (command, data) = (body[1], &body[2..body.len() - 1]);
        let cell = self.list.deeds[self.place].reads.first().copied();
        let stored = cell.map_or(&[][..], |cell| &image[cell.place()]);
        let item = cell.and_then(Cell::item);
        let answer = match (command, item) {
            (55 | 61 | 64, Some(item)) => item.stored(image).to_be_bytes().to_vec(),
            (63, _) => stored[..=3 * usize::from(stored[0])].to_vec(),
            _ => stored.to_vec(),
        };
        let echoed = match command {
            53 | 77 => &[],
            59 => &data[..2],
            62 => &data[..1],
            _ => data,
        };
        let mut reply = ask(body[0], command, &[echoed, &answer].concat());
        reply.truncate(reply.len() - 2);
        reply
    }
}

/// A block's way with a list; whatever else it does is right.
pub struct Block {
    /// The order in which it serves a list.
    order: fn(&[Deed]) -> Vec<usize>,
    number: fn(&Step) -> u8,
    /// Whether it stores what a frame writes, or would if it were not refused.
    stores: fn(&Step) -> bool,
    /// The cell that it stores, from the one that is named.
    cell: fn(&Step, Cell) -> Cell,
    /// What the cell then holds, from what it held and what came.
    bytes: fn(&Step, &[u8], &[u8]) -> Vec<u8>,
    /// The word of the parts held, from the old one and the part's bit.
    held: fn(u16, u16) -> u16,
    /// The signature, kept to 16 bits, from the old one, the sum of what left
    /// and that of what came.
    word: fn(&Step, i32, i32, i32) -> i32,
    /// The reply to a read, from the right one for its image.
    reply: fn(&Step, Vec<u8>) -> Vec<u8>,
}

pub const RIGHT: Block = Block {
    order: |deeds| (0..deeds.len()).collect(),
    number: |step| step.number(),
    stores: |step| step.accepted(),
    cell: |_, cell| cell,
    bytes: |_, _, came| came.to_vec(),
    held: |word, bit| word | bit,
    word: |_, word, left, came| word - left + came,
    reply: |_, reply| reply,
};

impl Block {
    /// Whether a number or a reply or, unless the desk shows none, the image at
    /// the end is another.
    pub fn differs(&self, list: &List, meant: &[Deed]) -> bool {
        let mut image = list.start.clone();
        let (mut before, mut replies) = (Vec::new(), Vec::new());
        for place in (self.order)(&list.deeds) {
            let step = Step {
                list,
                meant,
                place,
                before: &before,
                replies: &replies,
                image: &image,
            };
            let number = (self.number)(&step);
            let reply = match number {
                0 => (self.reply)(&step, step.reply_on(&image)),
                _ => Vec::new(),
            };
            let served = &list.served[place];
            if (number, &reply) != (served.number, &served.reply) {
                return true;
            }
            for (offset, bytes) in self.stored(&step) {
                image[offset..offset + bytes.len()].copy_from_slice(&bytes);
            }
            before.push(place);
            replies.push(reply);
        }
        list.letter != 'd' && image != list.end
    }

    /// The bytes that a frame puts into the image, and where.
    fn stored(&self, step: &Step) -> Vec<(usize, Vec<u8>)> {
        let write = step.meant[step.place].writes.as_ref();
        let Some((cell, came)) = write.filter(|_| (self.stores)(step)) else {
            return Vec::new();
        };
        let cell = (self.cell)(step, *cell);
        let left = &step.image[cell.place()];
        let bytes = (self.bytes)(step, left, came);
        let mut stored = Vec::new();
        if let Some(item) = cell.item() {
            let word = i32::from(item.stored(step.image));
            let word = (self.word)(step, word, total(left), total(&bytes)) as u16;
            stored.push((item.word, word.to_be_bytes().to_vec()));
            if let Cell::Part(_, part) = cell {
                let at = 17 + item.word - WORDS.start;
                let held = u16::from_be_bytes([step.image[at], step.image[at + 1]]);
                let held = (self.held)(held, 1 << (part - 1));
                stored.push((at, held.to_be_bytes().to_vec()));
            }
        }
        stored.push((cell.place().start, bytes));
        stored
    }
}

fn total(bytes: &[u8]) -> i32 {
    sum(bytes) as i32
}

// Blocks that are wrong in one thing.

const fn order(order: fn(&[Deed]) -> Vec<usize>) -> Block {
    Block { order, ..RIGHT }
}

const fn stores(stores: fn(&Step) -> bool) -> Block {
    Block { stores, ..RIGHT }
}

const fn cell(cell: fn(&Step, Cell) -> Cell) -> Block {
    Block { cell, ..RIGHT }
}

const fn bytes(bytes: fn(&Step, &[u8], &[u8]) -> Vec<u8>) -> Block {
    Block { bytes, ..RIGHT }
}

const fn held(held: fn(u16, u16) -> u16) -> Block {
    Block { held, ..RIGHT }
}

const fn word(word: fn(&Step, i32, i32, i32) -> i32) -> Block {
    Block { word, ..RIGHT }
}

const fn replies(reply: fn(&Step, Vec<u8>) -> Vec<u8>) -> Block {
    Block { reply, ..RIGHT }
}

/// A block that refuses what it should accept, and does not store it either.
const fn refuses(number: fn(&Step) -> u8) -> Block {
    Block { number, ..RIGHT }
}

/// What is wrong with a block, the block, and the calls that must show it.
pub type Wrong = (&'static str, Block, &'static [char]);

/// All of them, always in the same order.
pub fn all() -> impl Iterator<Item = &'static Wrong> {
    let lists: [&[Wrong]; 2] = [&stored::WRONG, &shown::WRONG];
    lists.into_iter().flatten()
}

#[cfg(test)]
mod tests {
    use super::*;
    use crate::compare::{desk_calls, probe_calls};
    use crate::order::lists::Lists;
    use crate::{desk_streams, probe_scripts};

    /// The rule stands here once more, for wrong ones to differ from it in one
    /// thing each. It must be the model's.
    #[test]
    fn right_block_does_as_the_model() {
        let (mut lists, mut held) = (Lists::default(), 0);
        let mut hold = |list: Option<List>| {
            if let Some(list) = list.filter(|list| list.served.len() < 200) {
                assert!(!RIGHT.differs(&list, &list.meant()), "a list");
                held += 1;
            }
        };
        for number in 0..probe_scripts::purposeful() + 30 {
            let (_, script) = probe_scripts::script(8, number);
            probe_calls(&script, true, |came| hold(lists.take(came)));
        }
        for number in 0..desk_streams::purposeful() + 10 {
            let (_, stream) = desk_streams::stream(8, number);
            desk_calls(&stream, true, |came| hold(lists.take(came)));
        }
        hold(lists.end());
        assert!(held > 300, "only {held} lists");
    }
}
