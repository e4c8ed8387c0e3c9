//! Changes of the frames' contents: the address, the command, the table, the part
//! and then the rows. The frames stay good ones.

use super::{Change, Named, TABLE_NUMBERS};
use crate::streams::Rng;

const fn writes(name: &'static str, change: fn(&mut Rng, &mut [Vec<u8>], usize)) -> Named {
    (name, 18, Change::Contents(change))
}

const fn parts(name: &'static str, change: fn(&mut Rng, &mut [Vec<u8>], usize)) -> Named {
    (name, 19, Change::Contents(change))
}

/// One byte of all frames becomes this.
fn in_all(frames: &mut [Vec<u8>], place: usize, value: u8) {
    for frame in frames {
        frame[place] = value;
    }
}

/// A frame other than this one.
fn another(rng: &mut Rng, at: usize) -> usize {
    (at + 1 + rng.below(10)) % 11
}

/// An address other than this one and 0, one in three of them near to it.
fn another_address(rng: &mut Rng, address: u8) -> u8 {
    let by = 1 + rng.below(254);
    let by = rng.pick(&[by, by, by, by, 1, 254]);
    let turned = (usize::from(address) + 254 + by) % 255;
    turned as u8 + 1
}

/// Of commands, lengths, addresses and tables.
pub const WRITES: [Named; 31] = [
    writes("command 58", |_, frames, at| frames[at][1] = 58),
    writes("command 60", |_, frames, at| frames[at][1] = 60),
    writes("another command", |rng, frames, at| {
        let any = 59u8.wrapping_add(rng.between(2, 254));
        frames[at][1] = rng.pick(&[any, 0, 51, 61, 62, 53, 187, 179, 255]);
    }),
    writes("command 60 in all frames", |_, frames, _| {
        in_all(frames, 1, 60)
    }),
    writes("a body of 132 bytes", |_, frames, at| _ = frames[at].pop()),
    writes("a body of 131 bytes", |_, frames, at| {
        frames[at].truncate(130)
    }),
    writes("a body without rows", |_, frames, at| {
        frames[at].truncate(4)
    }),
    writes("a body without a part", |_, frames, at| {
        frames[at].truncate(3)
    }),
    writes("a body of 3 bytes", |_, frames, at| frames[at].truncate(2)),
    writes("a shorter body", |rng, frames, at| {
        let length = 5 + rng.below(127);
        frames[at].truncate(length);
    }),
    writes("all bodies of 132 bytes", |_, frames, _| {
        for frame in frames {
            frame.pop();
        }
    }),
    writes("a request to read the part", |_, frames, at| {
        frames[at].truncate(4);
        frames[at][1] = 60;
    }),
    writes("another address", |rng, frames, at| {
        frames[at][0] = another_address(rng, frames[at][0]);
    }),
    writes("address 0", |_, frames, at| frames[at][0] = 0),
    writes("address 0 in all frames", |_, frames, _| {
        in_all(frames, 0, 0)
    }),
    writes("two addresses", |_, frames, at| {
        let other = frames[0][0] ^ 1;
        for frame in &mut frames[at.clamp(1, 8) + 1..] {
            frame[0] = other;
        }
    }),
    writes("another table", |rng, frames, at| {
        let table = frames[at][2];
        let place = TABLE_NUMBERS.iter().position(|&number| number == table);
        let place = place.unwrap_or(0) + 1 + rng.below(15);
        frames[at][2] = TABLE_NUMBERS[place % 16];
    }),
    writes("a table 10 above or below", |_, frames, at| {
        let table = frames[at][2];
        frames[at][2] = if table < 10 { table + 10 } else { table - 10 };
    }),
    writes("no table", |rng, frames, at| {
        frames[at][2] = rng.pick(&[0, 9, 10, 19, 255])
    }),
    writes("two tables", |_, frames, at| {
        let other = if frames[0][2] == 1 { 2 } else { 1 };
        for frame in &mut frames[at.clamp(1, 8) + 1..] {
            frame[2] = other;
        }
    }),
    writes("a table 128 above", |_, frames, at| frames[at][2] += 128),
    // Each of them can be the other, so that in this frame both are right.
    writes("address and table the other way round", |_, frames, at| {
        let address = if frames[0][2] == 7 { 5 } else { 7 };
        in_all(frames, 0, address);
        frames[at].swap(0, 2);
    }),
    writes("table 0 in all frames", |_, frames, _| in_all(frames, 2, 0)),
    writes("table 9 in all frames", |_, frames, _| in_all(frames, 2, 9)),
    writes("table 10 in all frames", |_, frames, _| {
        in_all(frames, 2, 10)
    }),
    writes("table 19 in all frames", |_, frames, _| {
        in_all(frames, 2, 19)
    }),
    writes("table 20 in all frames", |_, frames, _| {
        in_all(frames, 2, 20)
    }),
    writes("table 21 to 28 in all frames", |rng, frames, _| {
        in_all(frames, 2, rng.between(21, 28));
    }),
    writes("a table and 32 in all frames", |_, frames, _| {
        let table = frames[0][2];
        in_all(frames, 2, table + 32);
    }),
    writes("a table and 128 in all frames", |_, frames, _| {
        let table = frames[0][2];
        in_all(frames, 2, table + 128);
    }),
    writes("table 255 in all frames", |_, frames, _| {
        in_all(frames, 2, 255)
    }),
];

/// Of parts. Where one is there twice, another is missing.
pub const PARTS: [Named; 13] = [
    parts("part 0", |_, frames, at| frames[at][3] = 0),
    parts("part 12", |_, frames, at| frames[at][3] = 12),
    parts("part 255", |_, frames, at| frames[at][3] = 255),
    parts("another part that is none", |rng, frames, at| {
        frames[at][3] = rng.between(13, 254);
    }),
    parts("a part 16 above", |_, frames, at| frames[at][3] += 16),
    parts("a part 128 above", |_, frames, at| frames[at][3] += 128),
    parts("a part twice", |rng, frames, at| {
        frames[at][3] = frames[another(rng, at)][3]
    }),
    parts("the part of the frame beside it", |_, frames, at| {
        let beside = if at == 0 { 1 } else { at - 1 };
        frames[at][3] = frames[beside][3];
    }),
    parts("a frame twice", |rng, frames, at| {
        frames[at] = frames[another(rng, at)].clone()
    }),
    // 1 and 6 for 3 and 4: the sum of all parts stays, and their exclusive or too.
    parts("two parts twice", |_, frames, _| {
        for frame in frames {
            frame[3] = match frame[3] {
                3 => 1,
                4 => 6,
                part => part,
            };
        }
    }),
    parts("all parts alike", |_, frames, at| {
        let part = frames[at][3];
        in_all(frames, 3, part);
    }),
    parts("parts from 0", |_, frames, _| {
        for frame in frames {
            frame[3] -= 1;
        }
    }),
    parts("parts from 2", |_, frames, _| {
        for frame in frames {
            frame[3] += 1;
        }
    }),
];
