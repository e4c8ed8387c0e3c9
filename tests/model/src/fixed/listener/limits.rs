//! Single bytes that are given to records of every kind, also to such as no line
//! leaves.

use super::{Line, Set};
use crate::listener::ROOM;

pub fn all() -> Vec<(&'static str, Vec<Line>)> {
    vec![
        ("listener, each limit", each_limit()),
        ("listener, every byte", every_byte()),
        ("listener, strange records", strange()),
    ]
}

/// What a byte does to a record.
#[derive(Clone, Copy)]
enum Does {
    /// The byte is the first that is gathered.
    Starts,
    /// It is one more.
    Gathers,
    /// It is the last.
    Ends,
    Drops,
    Nothing,
}

use Does::{Drops, Ends, Gathers, Nothing, Starts};

/// A record, a byte and what that does.
fn does(rule: &'static str, set: Set, byte: u8, does: Does) -> Line {
    let (count, place) = (set.count, set.count as usize);
    let line = Line::new(rule);
    let line = match does {
        Starts => line.hears(b":").leaves(1, true).keeps(0, b":"),
        Gathers => line
            .hears(&[byte])
            .leaves(count + 1, true)
            .keeps(place, &[byte]),
        Ends => {
            let mut frame = vec![set.fill; place];
            for &(offset, value) in set.bytes.iter().filter(|(offset, _)| *offset < place) {
                frame[offset] = value;
            }
            frame.push(byte);
            line.ends(&[byte], &frame)
        }
        Drops => line.hears(&[byte]).leaves(0, false),
        Nothing => line.hears(&[byte]),
    };
    line.from(set)
}

/// What is gathered has no byte before its first.
const FIRST: [Does; 5] = [Starts, Gathers, Gathers, Gathers, Gathers];
const MORE: [Does; 5] = [Starts, Ends, Gathers, Gathers, Gathers];
const FULL: [Does; 5] = [Starts, Drops, Drops, Drops, Drops];
const NOT: [Does; 5] = [Starts, Nothing, Nothing, Nothing, Nothing];

/// The flag, the count, and what is done by 3Ah, by 0Ah behind 0Dh, by 0Ah
/// behind another byte, by 0Dh, and by any other byte.
const LIMITS: [(bool, u64, [Does; 5]); 30] = [
    (true, 0, FIRST),
    (true, 1, MORE),
    (true, 2, MORE),
    (true, 255, MORE),
    (true, 256, MORE),
    (true, 267, MORE),
    (true, 268, MORE),
    (true, 269, FULL),
    (true, 270, NOT),
    (true, 271, NOT),
    (true, 512, NOT),
    (true, 65_536, NOT),
    (true, 65_536 + 5, NOT),
    (true, 1 << 32, NOT),
    (true, (1 << 32) + 5, NOT),
    (true, 1 << 63, NOT),
    (true, u64::MAX, NOT),
    (false, 0, NOT),
    (false, 1, NOT),
    (false, 2, NOT),
    (false, 267, NOT),
    (false, 268, NOT),
    (false, 269, NOT),
    (false, 270, NOT),
    (false, 271, NOT),
    (false, 65_536 + 5, NOT),
    (false, (1 << 32) + 5, NOT),
    (false, 1 << 63, NOT),
    (false, u64::MAX - 1, NOT),
    (false, u64::MAX, NOT),
];

/// In the room stands 0Dh where none should be looked for.
fn each_limit() -> Vec<Line> {
    let mut lines = Vec::new();
    for (gathering, count, [start, fitting, feed, ret, other]) in LIMITS {
        // The last byte that is gathered, if the room has it.
        let behind = |byte: u8, others: u8| {
            let set = Set::new(gathering, count, others);
            match count {
                1..=269 => set.with(count as usize - 1, &[byte]),
                _ => set,
            }
        };
        lines.extend([
            does("3Ah", behind(b'\r', b'7'), b':', start),
            does("0Ah behind 0Dh", behind(b'\r', b'7'), b'\n', fitting),
            does("0Ah behind another", behind(b'7', b'\r'), b'\n', feed),
            does("0Ah behind 0Ah", behind(b'\n', b'\r'), b'\n', feed),
            does("0Ah behind 3Ah", behind(b':', b'\r'), b'\n', feed),
            does("0Dh", behind(b'\r', b'\r'), b'\r', ret),
            does("another byte", behind(b'\r', b'\n'), b'7', other),
        ]);
    }
    lines
}

/// All 256 on a record that an 0Ah ends, on a full one, on one that holds a
/// frame, on one that holds none, and on one that is over-full.
fn every_byte() -> Vec<Line> {
    let gathering = Set::new(true, 5, 0x00).with(0, b":013\r");
    let full = Set::new(true, 269, b'\r').with(0, b":");
    let holding = Set::new(false, 5, 0xFF).with(0, b":01\r\n");
    let empty = Set::new(false, 0, b'\r');
    let over = Set::new(true, 270, b'\r');
    let mut lines = Vec::new();
    for byte in 0..=255 {
        let (ended, otherwise) = match byte {
            0x3A => (Starts, [Starts; 4]),
            0x0A => (Ends, [Drops, Nothing, Nothing, Nothing]),
            _ => (Gathers, [Drops, Nothing, Nothing, Nothing]),
        };
        lines.push(does("behind 0Dh", gathering.clone(), byte, ended));
        let others = [&full, &holding, &empty, &over].into_iter().cloned();
        for (set, done) in others.zip(otherwise) {
            lines.push(does("no end", set, byte, done));
        }
    }
    lines
}

/// Every byte of the room is 0Dh.
fn returns(gathering: bool, count: u64) -> Set {
    Set::new(gathering, count, b'\r')
}

/// Records that gather what no 3Ah began, and others with anything in the room.
fn strange() -> Vec<Line> {
    let mut lines = unbegun();
    lines.extend(nearly_full());
    lines.extend(from_any());
    lines
}

/// What is gathered already is not judged, and no byte stands before the first.
fn unbegun() -> Vec<Line> {
    let line = Line::new;
    vec![
        line("0Ah first")
            .from(returns(true, 0))
            .hears(b"\n")
            .leaves(1, true)
            .keeps(0, b"\n"),
        line("an end behind that").ends(b"\r\n", b"\n\r\n"),
        line("an end first")
            .from(returns(true, 0))
            .ends(b"\r\n", b"\r\n"),
        line("0Dh gathered")
            .from(returns(true, 1))
            .ends(b"\n", b"\r\n"),
        line("no 3Ah first")
            .from(returns(true, 0))
            .ends(b"0132CD\r\n", b"0132CD\r\n"),
        line("an end in it already")
            .from(Set::new(true, 5, 0).with(0, b":\r\n0\r"))
            .ends(b"\n", b":\r\n0\r\n"),
        line("3Ah in it already")
            .from(Set::new(true, 4, 0).with(0, b":0:\r"))
            .ends(b"\n", b":0:\r\n"),
    ]
}

fn nearly_full() -> Vec<Line> {
    let line = Line::new;
    let longest = [&[b'\r'; 268], &b"\n"[..]].concat();
    vec![
        line("268 times 0Dh")
            .from(returns(true, 268))
            .ends(b"\n", &longest),
        line("behind that").hears(b"\n\r\n"),
        line("267 times 0Dh")
            .from(returns(true, 267))
            .hears(b"0")
            .leaves(268, true)
            .keeps(267, b"0"),
        line("one more")
            .hears(b"\r")
            .leaves(269, true)
            .keeps(268, b"\r"),
        line("and 0Ah").hears(b"\n").leaves(0, false),
        line("all of it passes by").hears(b"\r\n0\xFF"),
    ]
}

/// Whatever the record was, a frame comes to the same.
fn from_any() -> Vec<Line> {
    let (line, frame) = (Line::new, b":0132CD\r\n");
    let records = [
        (false, 0),
        (false, 9),
        (false, 269),
        (true, 269),
        (true, 270),
    ];
    let mut lines = Vec::new();
    for (gathering, count) in records {
        for fill in [b':', b'\r', b'\n', 0x00] {
            let set = Set::new(gathering, count, fill);
            lines.push(line("a frame").from(set.clone()).frame(frame));
            // A full record drops at the first byte, and all others pass by.
            let end = line("an end").from(set).hears(b"\r\n");
            lines.push(match (gathering, count) {
                (true, 269) => end.leaves(0, false),
                _ => end,
            });
            lines.push(line("a frame behind that").frame(frame));
        }
    }
    for count in 0..=ROOM as u64 {
        let set = Set::new(true, count, (count % 251) as u8);
        lines.push(line("a frame from any count").from(set).frame(frame));
    }
    lines
}
