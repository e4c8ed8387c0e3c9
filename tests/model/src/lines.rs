//! What a noisy line is made of (document 02, wish 1): frames for the block,
//! frames for a listener alone, noise without 3Ah and noise with it. What a
//! block would refuse is a frame to a listener all the same, as long as it is
//! well-formed.

use crate::listener::since::is_well_formed;
use crate::streams::{piece, session, Rng};

const DIGITS: &[u8; 22] = b"0123456789ABCDEFabcdef";

/// A byte that is neither 3Ah nor one of an end.
fn plain_byte(rng: &mut Rng) -> u8 {
    loop {
        let byte = match rng.percent(40) {
            true => rng.pick(DIGITS),
            false => rng.byte(),
        };
        if !b":\r\n".contains(&byte) {
            return byte;
        }
    }
}

/// A byte other than 3Ah, one of an end as often as not.
fn quiet_byte(rng: &mut Rng) -> u8 {
    match rng.below(4) {
        0 => b'\r',
        1 => b'\n',
        _ => plain_byte(rng),
    }
}

fn many(rng: &mut Rng, count: usize, byte: fn(&mut Rng) -> u8) -> Vec<u8> {
    (0..count).map(|_| byte(rng)).collect()
}

/// Noise without 3Ah: none at all, ends, bytes without ends and with them, what
/// is left of a frame that has lost its beginning, and at times more than a
/// record has room for.
pub fn quiet(rng: &mut Rng) -> Vec<u8> {
    let few = 1 + rng.below(20);
    match rng.below(12) {
        0 | 1 => Vec::new(),
        2 => b"\r".to_vec(),
        3 => b"\n".to_vec(),
        4 => b"\r\n".repeat(1 + rng.below(3)),
        5 | 6 => many(rng, few, plain_byte),
        7..=9 => many(rng, few, quiet_byte),
        10 => [many(rng, few, |rng| rng.pick(DIGITS)), b"\r\n".to_vec()].concat(),
        _ => {
            let count = rng.pick(&[few, 268, 269, 270, 300]);
            many(rng, count, quiet_byte)
        }
    }
}

/// A frame for a listener, or one that is too long for it: so many bytes, 3 at
/// the least, with no 3Ah but the first and no 0Dh 0Ah but the last two.
pub fn of_length(rng: &mut Rng, length: usize) -> Vec<u8> {
    let mut frame = vec![b':'];
    while frame.len() + 2 < length {
        let byte = quiet_byte(rng);
        match (frame.ends_with(b"\r"), byte) {
            (true, b'\n') => frame.push(plain_byte(rng)),
            _ => frame.push(byte),
        }
    }
    frame.extend(b"\r\n");
    frame
}

/// A length of such a frame, half of them about the limit.
pub fn any_length(rng: &mut Rng) -> usize {
    match rng.below(4) {
        0 => 3 + rng.below(9),
        1 => 3 + rng.below(267),
        _ => rng.pick(&[266, 267, 268, 269, 269, 270, 270, 271, 272, 280]),
    }
}

/// Noise with 3Ah: one alone, frames that have lost their end, frames with one
/// more 3Ah, more than a record has room for, and any bytes with some among
/// them. Part of it may be a frame after all.
pub fn loud(rng: &mut Rng, address: u8) -> Vec<u8> {
    let length = any_length(rng);
    let mut noise = match rng.percent(50) {
        true => requests(rng, address).concat(),
        false => of_length(rng, length),
    };
    let place = rng.below(noise.len() + 1);
    match rng.below(6) {
        0 => return b":".to_vec(),
        1 => noise.truncate(place),
        2 => noise.truncate(noise.len().saturating_sub(1 + rng.below(2))),
        3 => noise.insert(place, b':'),
        4 => {
            noise = of_length(rng, 280);
            noise.truncate(length);
        }
        _ => {
            noise = many(rng, 30, quiet_byte);
            for _ in 0..3 {
                noise[rng.below(30)] = b':';
            }
        }
    }
    noise
}

/// Requests to a block that belong together, accepted and refused ones, as far
/// as they are well-formed.
pub fn requests(rng: &mut Rng, address: u8) -> Vec<Vec<u8>> {
    let contents = session(rng, address);
    let frames = contents.iter().map(|contents| piece(rng, contents));
    frames.filter(|frame| is_well_formed(frame)).collect()
}

/// Frames with noise without 3Ah before, between and behind them.
pub fn in_quiet(rng: &mut Rng, frames: &[Vec<u8>]) -> Vec<u8> {
    let mut line = quiet(rng);
    for frame in frames {
        line.extend(frame);
        line.extend(quiet(rng));
    }
    line
}

/// Frames and noise of every kind in any order.
pub fn any_line(rng: &mut Rng, address: u8) -> Vec<u8> {
    let mut line = Vec::new();
    for _ in 0..2 + rng.below(4) {
        let length = any_length(rng);
        match rng.below(8) {
            0..=2 => line.extend(requests(rng, address).concat()),
            3 => line.extend(of_length(rng, length)),
            4 | 5 => line.extend(loud(rng, address)),
            _ => line.extend(quiet(rng)),
        }
    }
    line
}

/// A line in pieces, some of them empty: as it is, or cut at any places, or a
/// byte at a time.
pub fn cut(rng: &mut Rng, line: &[u8]) -> Vec<Vec<u8>> {
    let cuts = rng.pick(&[0, 1, 3, 8]);
    let mut places: Vec<usize> = (0..cuts).map(|_| rng.below(line.len() + 1)).collect();
    if rng.percent(15) {
        let first = rng.below(line.len() + 1);
        places.extend(first..line.len().min(first + 12));
    }
    places.sort();
    let mut pieces = Vec::new();
    let mut from = 0;
    for place in places.into_iter().chain([line.len()]) {
        pieces.push(line[from..place].to_vec());
        from = place;
    }
    pieces
}
