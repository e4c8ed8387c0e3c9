//! Listeners that start, gather, pass by or drop otherwise.

use super::{before, begin, lay_down, put, Way, Wrong, RIGHT};
use crate::listener::Listener;

const fn starts(starts: fn(&Listener, u8) -> bool) -> Way {
    Way { starts, ..RIGHT }
}

const fn start(start: fn(&mut Listener)) -> Way {
    Way { start, ..RIGHT }
}

const fn gathers(gathers: fn(&Listener) -> bool) -> Way {
    Way { gathers, ..RIGHT }
}

const fn passes(pass: fn(&mut Listener, u8)) -> Way {
    Way { pass, ..RIGHT }
}

const fn drops(drops: fn(&Listener, u8) -> bool) -> Way {
    Way { drops, ..RIGHT }
}

const fn dropping(drop: fn(&mut Listener, u8)) -> Way {
    Way { drop, ..RIGHT }
}

fn is_holding(listener: &Listener) -> bool {
    !listener.gathering && (1..=269).contains(&listener.count)
}

pub const WRONG: [Wrong; 27] = [
    // What a 3Ah does.
    (
        "3Ah gathered inside a frame",
        starts(|listener, byte| byte == b':' && !(RIGHT.gathers)(listener)),
    ),
    (
        "3Ah gathered behind 0Dh",
        starts(|listener, byte| {
            let behind = (RIGHT.gathers)(listener) && before(listener, 1) == Some(b'\r');
            byte == b':' && !behind
        }),
    ),
    (
        "3Ah passed by while a frame is held",
        starts(|listener, byte| byte == b':' && !is_holding(listener)),
    ),
    (
        "3Ah passed by when over-full",
        starts(|listener, byte| byte == b':' && listener.count <= 269),
    ),
    (
        "3Ah as the 270th byte drops",
        starts(|listener, byte| byte == b':' && listener.count != 269),
    ),
    ("BAh taken for 3Ah", starts(|_, byte| byte & 0x7F == b':')),
    (
        "room cleared by a 3Ah",
        start(|listener| {
            listener.room.fill(0);
            begin(listener, b':');
        }),
    ),
    (
        "3Ah not gathered",
        start(|listener| (listener.count, listener.gathering) = (0, true)),
    ),
    (
        "3Ah gathered behind what is held",
        start(
            |listener| match is_holding(listener) && listener.count < 269 {
                true => {
                    put(listener, b':');
                    listener.gathering = true;
                }
                false => begin(listener, b':'),
            },
        ),
    ),
    // When it is gathering.
    (
        "over-full by its flag",
        gathers(|listener| listener.gathering),
    ),
    (
        "count 0 not gathering",
        gathers(|listener| listener.gathering && (1..=269).contains(&listener.count)),
    ),
    (
        "gathering without a 3Ah",
        gathers(|listener| (RIGHT.gathers)(listener) || listener.count == 0),
    ),
    (
        "bytes gathered behind a frame",
        gathers(|listener| (RIGHT.gathers)(listener) || is_holding(listener)),
    ),
    (
        "270th byte passed by",
        gathers(|listener| listener.gathering && listener.count < 269),
    ),
    (
        "count kept to 16 bits",
        gathers(|listener| listener.gathering && listener.count as u16 <= 269),
    ),
    (
        "count kept to 32 bits",
        gathers(|listener| listener.gathering && listener.count as u32 <= 269),
    ),
    // What is left by a byte passed by.
    (
        "frame forgotten behind it",
        passes(|listener, _| {
            if is_holding(listener) {
                listener.count = 0;
            }
        }),
    ),
    ("byte passed by put into the room", passes(lay_down)),
    (
        "over-full flag cleared",
        passes(|listener, _| listener.gathering = false),
    ),
    (
        "over-full count cleared",
        passes(|listener, _| {
            if listener.count > 269 {
                listener.count = 0;
            }
        }),
    ),
    // What drops, and what is left by a drop.
    (
        "dropped a byte early",
        drops(|listener, _| listener.count >= 268),
    ),
    (
        "dropped a byte early but for an end",
        drops(|listener, byte| {
            listener.count == 269 || listener.count == 268 && !(RIGHT.ends)(listener, byte)
        }),
    ),
    (
        "an end of 270 bytes handed out",
        drops(|listener, byte| listener.count == 269 && !(RIGHT.ends)(listener, byte)),
    ),
    (
        "count kept by a drop",
        dropping(|listener, _| listener.gathering = false),
    ),
    (
        "gathering after a drop",
        dropping(|listener, _| listener.count = 0),
    ),
    (
        "room cleared by a drop",
        dropping(|listener, byte| {
            listener.room.fill(0);
            (RIGHT.drop)(listener, byte);
        }),
    ),
    ("byte that drops gathered first", dropping(begin)),
];
