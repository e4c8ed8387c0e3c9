//! The panel's calls by what they meet: numbers, lengths and images.

use super::{Asked, Call};
use crate::block::IMAGE_BYTES;

/// A kind of call: its name, whether a call is one, and the numbers that must
/// come up, of fixed calls and of drawn ones.
pub struct Of {
    pub name: &'static str,
    pub fits: fn(&Call) -> bool,
    pub fixed: &'static [u8],
    pub drawn: &'static [u8],
}

const UNSEALED: &[u8] = &[0, 1, 2, 3, 4, 5, 6, 7, 8, 9, 10, 11];
const SEALED: &[u8] = &[0, 1, 2, 3, 4, 5, 6, 7, 8, 9, 10, 16];

pub const CALLS: [Of; 7] = [
    Of {
        name: "S",
        fits: |call| call.letter == 'S',
        fixed: UNSEALED,
        drawn: UNSEALED,
    },
    Of {
        name: "K",
        fits: |call| call.letter == 'K',
        fixed: SEALED,
        drawn: SEALED,
    },
    Of {
        name: "Z, 0",
        fits: |call| call.letter == 'Z' && by_0(call),
        fixed: UNSEALED,
        drawn: UNSEALED,
    },
    Of {
        name: "Z, not 0",
        fits: |call| call.letter == 'Z' && !by_0(call),
        fixed: SEALED,
        drawn: SEALED,
    },
    Of {
        name: "F",
        fits: |call| call.letter == 'F',
        fixed: &[0, 1, 11],
        drawn: &[0, 1, 11],
    },
    // Those of the probe's fixed calls that have 10 stand among moves, which the
    // panel's program does not know.
    Of {
        name: "H",
        fits: |call| call.letter == 'H',
        fixed: &[0, 1],
        drawn: &[0, 1, 10],
    },
    Of {
        name: "J",
        fits: |call| call.letter == 'J',
        fixed: &[0, 1, 10],
        drawn: &[0, 1, 10],
    },
];

fn by_0(call: &Call) -> bool {
    matches!(call.asked, Asked::Serve(0, _))
}

/// A letter, what its calls meet, and whether a call of that letter does.
type Row = (char, &'static str, fn(&Call) -> bool);

pub const ROWS: [Row; 32] = [
    ('Z', "2, output of 268", |call| {
        frame(call, 2) && call.room == 268
    }),
    ('Z', "2, no output", |call| frame(call, 2) && call.room == 0),
    ('Z', "0, output of 269", |call| {
        frame(call, 0) && call.room == 269
    }),
    ('Z', "0, output of 400", |call| {
        frame(call, 0) && call.room == 400
    }),
    ('Z', "0, reply of 269 bytes", |call| {
        frame(call, 0) && call.lent(0) == 269
    }),
    ('Z', "0, image changed", |call| {
        frame(call, 0) && call.image != call.image_before
    }),
    ('Z', "1, no image", |call| {
        frame(call, 1) && call.image.is_empty()
    }),
    ('Z', "1, image of 23,753", |call| {
        frame(call, 1) && call.image.len() == 23_753
    }),
    ('Z', "1, image of 23,816", |call| {
        frame(call, 1) && call.image.len() == 23_816
    }),
    ('Z', "1, image of 23,817", |call| {
        frame(call, 1) && call.image.len() == IMAGE_BYTES
    }),
    ('Z', "1, image of 23,818", |call| {
        frame(call, 1) && call.image.len() == 23_818
    }),
    ('Z', "1, output below 269", |call| {
        frame(call, 1) && call.room < 269
    }),
    ('Z', "3, frame of no byte", |call| {
        frame(call, 3) && frame_length(call) == 0
    }),
    ('Z', "3, frame above 269", |call| {
        frame(call, 3) && frame_length(call) > 269
    }),
    ('Z', "16, image not fresh", |call| {
        // Only the mark, the version and the address of a fresh image are not 0.
        frame(call, 16) && call.image[6..].iter().any(|&byte| byte != 0)
    }),
    ('J', "0, no part", |call| {
        held(call, 0, ALL) && call.lent(0) == 0
    }),
    ('J', "0, some parts", |call| {
        held(call, 0, ALL) && (1..11).contains(&call.lent(0))
    }),
    ('J', "0, part 1 missing of some", |call| {
        held(call, 0, ALL) && call.lent(0) > 0 && call.lent(1) == 1
    }),
    ('J', "0, part 11 alone missing", |call| {
        held(call, 0, ALL) && (call.lent(0), call.lent(1)) == (10, 11)
    }),
    ('J', "0, all eleven", |call| {
        held(call, 0, ALL) && call.lent(0) == 11
    }),
    ('J', "0, output below 269", |call| {
        held(call, 0, ALL) && call.room < 269
    }),
    ('J', "10, up to 255", |call| held(call, 10, (0, 255))),
    ('J', "10, 258", |call| held(call, 10, (258, 258))),
    ('J', "10, 256 to 65,535", |call| {
        held(call, 10, (256, 65_535))
    }),
    ('J', "10, 65,536 to 2^32-1", |call| {
        held(call, 10, (65_536, (1 << 32) - 1))
    }),
    ('J', "10, 2^32 and above", |call| {
        held(call, 10, (1 << 32, u64::MAX))
    }),
    ('J', "10, 2^64-1", |call| {
        held(call, 10, (u64::MAX, u64::MAX))
    }),
    ('J', "1, a table's number", |call| held(call, 1, (1, 8))),
    ('J', "1, 9 or 10", |call| held(call, 1, (9, 10))),
    ('J', "1, 256 to 65,535", |call| held(call, 1, (256, 65_535))),
    ('J', "1, 2^32 and above", |call| {
        held(call, 1, (1 << 32, u64::MAX))
    }),
    ('J', "1, another length", |call| {
        held(call, 1, ALL) && call.image.len() != IMAGE_BYTES
    }),
];

const ALL: (u64, u64) = (0, u64::MAX);

/// Whether it serves a frame by a number and gives this refusal number.
fn frame(call: &Call, number: u8) -> bool {
    (call.letter, call.number) == ('Z', number)
}

fn frame_length(call: &Call) -> usize {
    match call.asked {
        Asked::Serve(_, frame) => frame.len(),
        _ => 0,
    }
}

/// Whether it asks with a number of 64 bits, between these two, and gives this
/// refusal number.
fn held(call: &Call, number: u8, (low, high): (u64, u64)) -> bool {
    let Asked::Held(table) = call.asked else {
        return false;
    };
    (call.letter, call.number) == ('J', number) && (low..=high).contains(&table)
}
