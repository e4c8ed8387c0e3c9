//! Listeners that end a frame otherwise, or hand it out or keep it otherwise.

use super::{before, count, put, Way, Wrong, RIGHT};
use crate::listener::Listener;

const fn ends(ends: fn(&Listener, u8) -> bool) -> Way {
    Way { ends, ..RIGHT }
}

const fn hands(hand: fn(&Listener) -> Vec<u8>) -> Way {
    Way { hand, ..RIGHT }
}

const fn leaves(end: fn(&mut Listener)) -> Way {
    Way { end, ..RIGHT }
}

pub const WRONG: [Wrong; 21] = [
    // What ends a frame.
    ("any 0Ah an end", ends(|_, byte| byte == b'\n')),
    ("0Dh an end", ends(|_, byte| byte == b'\r')),
    (
        "8Ah taken for 0Ah",
        ends(|listener, byte| (RIGHT.ends)(listener, byte & 0x7F)),
    ),
    (
        "0Ah anywhere behind 0Dh",
        ends(|listener, byte| byte == b'\n' && listener.room[..count(listener)].contains(&b'\r')),
    ),
    (
        "0Dh twice no end",
        ends(|listener, byte| (RIGHT.ends)(listener, byte) && before(listener, 2) != Some(b'\r')),
    ),
    (
        "no end without 3Ah",
        ends(|listener, byte| (RIGHT.ends)(listener, byte) && listener.room[0] == b':'),
    ),
    (
        "0Dh at the byte's own place",
        ends(|listener, byte| byte == b'\n' && before(listener, 0) == Some(b'\r')),
    ),
    (
        "first byte behind the room's last",
        ends(|listener, byte| match listener.count {
            0 => byte == b'\n' && listener.room.ends_with(b"\r"),
            _ => (RIGHT.ends)(listener, byte),
        }),
    ),
    (
        "no end at once behind 3Ah",
        ends(|listener, byte| (RIGHT.ends)(listener, byte) && listener.count != 2),
    ),
    (
        "no end before 9 bytes",
        ends(|listener, byte| (RIGHT.ends)(listener, byte) && listener.count >= 8),
    ),
    (
        "no end of an even length",
        ends(|listener, byte| (RIGHT.ends)(listener, byte) && listener.count % 2 == 0),
    ),
    (
        "no end of 269 bytes",
        ends(|listener, byte| (RIGHT.ends)(listener, byte) && listener.count != 268),
    ),
    // What is handed out.
    (
        "handed out without its last byte",
        hands(|listener| listener.room[..count(listener) - 1].to_vec()),
    ),
    (
        "handed out without its end",
        hands(|listener| listener.room[..count(listener) - 2].to_vec()),
    ),
    (
        "handed out without its first byte",
        hands(|listener| listener.room[1..count(listener)].to_vec()),
    ),
    (
        "handed out with the whole room",
        hands(|listener| listener.room.to_vec()),
    ),
    // What is left.
    (
        "frame not kept in the record",
        leaves(|listener| (listener.count, listener.gathering) = (0, false)),
    ),
    ("gathering behind a frame", leaves(|_| ())),
    (
        "room cleared behind a frame",
        leaves(|listener| {
            listener.room.fill(0);
            listener.gathering = false;
        }),
    ),
    (
        "rest of the room cleared behind a frame",
        leaves(|listener| {
            let held = count(listener);
            listener.room[held..].fill(0);
            listener.gathering = false;
        }),
    ),
    (
        "0Ah not kept in the room",
        Way {
            put: |listener, byte| match byte {
                b'\n' => listener.count += 1,
                _ => put(listener, byte),
            },
            ..RIGHT
        },
    ),
];
