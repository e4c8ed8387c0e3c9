//! Movers that lose or change bytes that are kept, or leave old ones, or do not
//! leave both buffers as they are when they refuse.

use super::{cleared, done, from, other, refused, rows_end, source, version, Wrong};
use crate::coverage::moves::{parts_held, Call, EITHER};
use crate::items::{ITEMS, WORDS};

pub const WRONG: [Wrong; 29] = [
    // What a refusal leaves.
    (
        "target cleared first",
        refused(|_, target| target.fill(0)),
        EITHER,
    ),
    ("target filled before judged", refused(copy), EITHER),
    (
        "mark written before judged",
        refused(|_, target| {
            if let Some(mark) = target.get_mut(..3) {
                mark.copy_from_slice(b"IZK");
            }
        }),
        EITHER,
    ),
    (
        "last byte written before judged",
        refused(|call, target| {
            if let (Some(to), Some(from)) = (target.last_mut(), call.source.last()) {
                *to = *from;
            }
        }),
        EITHER,
    ),
    // The source.
    (
        "source's version changed",
        source(|call, source| source[4] = other(from(call).0)),
        EITHER,
    ),
    ("source cleared", source(|_, source| source.fill(0)), EITHER),
    (
        "source's mark cleared",
        source(|_, source| source[..3].fill(0)),
        EITHER,
    ),
    // The head.
    (
        "version left as it was",
        version(|call| [0, from(call).0]),
        EITHER,
    ),
    (
        "version low byte first",
        version(|call| [other(from(call).0), 0]),
        EITHER,
    ),
    (
        "version's high byte left",
        version(|call| [call.target[3], other(from(call).0)]),
        EITHER,
    ),
    ("address 0", done(|_, target| target[5] = 0), EITHER),
    ("address 1", done(|_, target| target[5] = 1), EITHER),
    (
        "target's address kept",
        done(|call, target| target[5] = call.target[5]),
        EITHER,
    ),
    // The cells.
    (
        "nothing done",
        done(|call, target| target.copy_from_slice(call.target)),
        EITHER,
    ),
    ("fresh image", done(|_, target| target[6..].fill(0)), EITHER),
    ("mask lost", done(|_, target| target[6] = 0), EITHER),
    ("mode lost", done(|_, target| target[7] = 0), EITHER),
    (
        "clock lost",
        done(|_, target| target[8..17].fill(0)),
        EITHER,
    ),
    (
        "parts held lost",
        done(|_, target| target[17..49].fill(0)),
        EITHER,
    ),
    (
        "constants lost",
        done(|_, target| target[49..713].fill(0)),
        EITHER,
    ),
    (
        "error tables lost",
        done(|_, target| target[713..1225].fill(0)),
        EITHER,
    ),
    (
        "tables lost",
        done(|_, target| target[1225..WORDS.start].fill(0)),
        EITHER,
    ),
    (
        "additional tables left",
        done(|call, target| {
            let tables = 12_489..WORDS.start;
            target[tables.clone()].copy_from_slice(&call.target[tables]);
        }),
        EITHER,
    ),
    (
        "last byte lost",
        done(|_, target| target[WORDS.start - 1] = 0),
        EITHER,
    ),
    (
        "last byte left",
        done(|call, target| target[WORDS.start - 1] = call.target[WORDS.start - 1]),
        EITHER,
    ),
    (
        "old bytes left where 0 came",
        done(|call, target| {
            for (byte, old) in target[5..WORDS.start].iter_mut().zip(&call.target[5..]) {
                if *byte == 0 {
                    *byte = *old;
                }
            }
        }),
        EITHER,
    ),
    (
        "reserve cleared",
        done(|_, target| {
            for cell in target[49..713].chunks_exact_mut(83) {
                cell.copy_from_slice(&cleared(cell));
            }
        }),
        EITHER,
    ),
    (
        "bytes behind the rows cleared",
        done(|_, target| {
            for table in target[713..1225].chunks_exact_mut(64) {
                let end = rows_end(table);
                table[end..].fill(0);
            }
        }),
        EITHER,
    ),
    (
        "parts not held cleared",
        done(|call, target| {
            for (table, held) in ITEMS.iter().zip(parts_held(call.source)) {
                for part in (0..11).filter(|part| held >> part & 1 == 0) {
                    target[table.offset + 128 * part..][..128].fill(0);
                }
            }
        }),
        EITHER,
    ),
];

/// As many of the source's bytes as there is room for.
fn copy(call: &Call, target: &mut [u8]) {
    for (to, from) in target.iter_mut().zip(call.source) {
        *to = *from;
    }
}
