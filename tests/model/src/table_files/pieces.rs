//! Changes of the frames as they are written. All but those of the letters make
//! a file that is not eleven good frames.

use super::{Change, Named};
use crate::streams::{ask, end_around, frame, spelled, Rng, BESIDE_DIGITS};

const fn at(name: &'static str, change: fn(&mut Rng, &mut Vec<Vec<u8>>, usize)) -> Named {
    (name, 17, Change::Pieces(change))
}

/// A place of a digit in a frame.
fn digit(rng: &mut Rng, piece: &[u8]) -> usize {
    let inside = 1 + rng.below(piece.len() - 3);
    rng.pick(&[inside, inside, 1, 2, piece.len() - 4, piece.len() - 3])
}

/// The body of a frame, the checksum with it, by its digits.
fn body(piece: &[u8]) -> Vec<u8> {
    let digits = piece[1..piece.len() - 2].chunks(2);
    let byte = |pair: &[u8]| u8::from_str_radix(&String::from_utf8_lossy(pair), 16);
    digits.map(|pair| byte(pair).expect("two digits")).collect()
}

/// Another checksum for a frame: one more, one less, the sum itself, one whose
/// carries are added in again, and any other.
fn other_sum(rng: &mut Rng, piece: &mut Vec<u8>) {
    let mut body = body(piece);
    let right = body.pop().expect("a checksum");
    let any = right.wrapping_add(rng.between(1, 255));
    let around = end_around(&body);
    let choices = [
        any,
        right.wrapping_add(1),
        right.wrapping_sub(1),
        right.wrapping_neg(),
        around,
    ];
    let mut other = rng.pick(&choices);
    if other == right {
        other = any;
    }
    body.push(other);
    *piece = spelled(&body);
}

/// A character for a digit of a frame, somewhere.
fn no_digit(rng: &mut Rng, piece: &mut [u8], character: u8) {
    let place = digit(rng, piece);
    piece[place] = character;
}

/// Damage to one frame, or bytes that come before it or behind it.
pub const PIECES: [Named; 34] = [
    at("a digit left out", |rng, pieces, at| {
        let place = digit(rng, &pieces[at]);
        pieces[at].remove(place);
    }),
    at("a digit too many", |rng, pieces, at| {
        let place = digit(rng, &pieces[at]);
        pieces[at].insert(place, b'0');
    }),
    // The sum stays, so that the length alone is wrong.
    at("two digits too many", |_, pieces, at| {
        let end = pieces[at].len() - 4;
        pieces[at].splice(end..end, *b"00");
    }),
    at("two bytes alone", |rng, pieces, at| {
        let first = rng.byte();
        pieces[at] = spelled(&[first, first.wrapping_neg()]);
    }),
    at("no digits", |_, pieces, at| pieces[at] = b":\r\n".to_vec()),
    at("another first byte", |rng, pieces, at| {
        pieces[at][0] = rng.pick(b";0 \x00\xBA")
    }),
    at("any other first byte", |rng, pieces, at| {
        pieces[at][0] = rng.between(59, 255)
    }),
    at("3Ah left out", |_, pieces, at| _ = pieces[at].remove(0)),
    at("3Ah twice", |_, pieces, at| pieces[at].insert(0, b':')),
    at("noise before 3Ah", |rng, pieces, at| {
        let noise = rng.pick(&[&b" \t"[..], b"\xEF\xBB\xBF", b"\r", b"00", b"\x00\x00"]);
        pieces[at].splice(0..0, noise.iter().copied());
    }),
    at("another byte for 0Dh", |rng, pieces, at| {
        let place = pieces[at].len() - 2;
        pieces[at][place] = rng.pick(b"\x0C0 \x8D");
    }),
    at("0Dh left out", |_, pieces, at| {
        let place = pieces[at].len() - 2;
        pieces[at].remove(place);
    }),
    at("0Dh twice", |_, pieces, at| {
        let place = pieces[at].len() - 2;
        pieces[at].insert(place, b'\r');
    }),
    at("0Ah before 0Dh", |_, pieces, at| {
        let place = pieces[at].len() - 2;
        pieces[at].swap(place, place + 1);
    }),
    // Of the last frame that leaves a last piece without 0Ah, of any other it
    // joins two frames.
    at("0Ah left out", |_, pieces, at| _ = pieces[at].pop()),
    at("0Dh and 0Ah left out", |_, pieces, at| {
        let end = pieces[at].len() - 2;
        pieces[at].truncate(end);
    }),
    at("character 47 for a digit", |rng, pieces, at| {
        no_digit(rng, &mut pieces[at], 47);
    }),
    at("character 58 for a digit", |rng, pieces, at| {
        no_digit(rng, &mut pieces[at], 58);
    }),
    at("character 64 for a digit", |rng, pieces, at| {
        no_digit(rng, &mut pieces[at], 64);
    }),
    at("character 71 for a digit", |rng, pieces, at| {
        no_digit(rng, &mut pieces[at], 71);
    }),
    at("character 96 for a digit", |rng, pieces, at| {
        no_digit(rng, &mut pieces[at], 96);
    }),
    at("character 103 for a digit", |rng, pieces, at| {
        no_digit(rng, &mut pieces[at], 103);
    }),
    at("the first digit no digit", |rng, pieces, at| {
        pieces[at][1] = rng.pick(&BESIDE_DIGITS)
    }),
    at("the last digit no digit", |rng, pieces, at| {
        let place = pieces[at].len() - 3;
        pieces[at][place] = rng.pick(&BESIDE_DIGITS);
    }),
    at("a space for a digit", |rng, pieces, at| {
        let place = digit(rng, &pieces[at]);
        pieces[at][place] = rng.pick(b" \r:\x00\xFF");
    }),
    at("0Ah for a digit", |rng, pieces, at| {
        let place = digit(rng, &pieces[at]);
        pieces[at][place] = b'\n';
    }),
    at("another checksum", |rng, pieces, at| {
        other_sum(rng, &mut pieces[at])
    }),
    at("another byte under an old checksum", |rng, pieces, at| {
        let mut body = body(&pieces[at]);
        let place = rng.below(body.len() - 1);
        body[place] = body[place].wrapping_add(rng.between(1, 255));
        pieces[at] = spelled(&body);
    }),
    at("a frame left out", |_, pieces, at| drop(pieces.remove(at))),
    at("a frame once more", |_, pieces, at| {
        pieces.insert(at, pieces[at].clone())
    }),
    at(
        "the same with another checksum before it",
        |rng, pieces, at| {
            let mut other = pieces[at].clone();
            other_sum(rng, &mut other);
            pieces.insert(at, other);
        },
    ),
    at("another good frame before it", |rng, pieces, at| {
        let address = rng.byte();
        pieces.insert(at, ask(address, 50, &[]));
    }),
    at("0Ah alone before it", |_, pieces, at| {
        pieces.insert(at, b"\n".to_vec())
    }),
    at("0Dh 0Ah alone before it", |_, pieces, at| {
        pieces.insert(at, b"\r\n".to_vec())
    }),
];

fn behind(pieces: &mut Vec<Vec<u8>>, bytes: &[u8]) {
    pieces.push(bytes.to_vec());
}

/// Fills a file up to so many bytes, with as many 0Ah or with one piece.
fn fill(rng: &mut Rng, pieces: &mut Vec<Vec<u8>>, length: usize) {
    let lacking = length - pieces.concat().len();
    match rng.below(3) {
        0 => pieces.push(vec![b'\n'; lacking]),
        1 => pieces.push(vec![rng.pick(b"0\r\x00 "); lacking]),
        _ => pieces.push([vec![b'0'; lacking - 2], b"\r\n".to_vec()].concat()),
    }
}

/// What makes a file that is not eleven good frames as a whole. Eleven frames
/// have 2,959 bytes at the most, so that a file of 4,096 bytes and one of 4,097
/// are both refused 17, the one for its pieces.
pub const LIMITS: [Named; 27] = [
    at("no byte", |_, pieces, _| pieces.clear()),
    at("0Ah alone", |_, pieces, _| *pieces = vec![b"\n".to_vec()]),
    at("eleven times 0Ah", |_, pieces, _| {
        *pieces = vec![b"\n".to_vec(); 11]
    }),
    at("eleven times 0Dh 0Ah", |_, pieces, _| {
        *pieces = vec![b"\r\n".to_vec(); 11]
    }),
    at("one frame", |_, pieces, _| pieces.truncate(1)),
    at("ten frames and the end of one", |_, pieces, _| {
        pieces[10] = b"\r\n".to_vec()
    }),
    at("ten frames and half of one", |_, pieces, _| {
        pieces[10].truncate(135)
    }),
    at("ten frames and 0Ah", |_, pieces, _| {
        pieces[10] = b"\n".to_vec()
    }),
    at("twelve frames, the last no write", |rng, pieces, _| {
        let other = frame(&[rng.byte(), rng.byte()]);
        behind(pieces, &other);
    }),
    at("all frames twice", |_, pieces, _| {
        pieces.extend(pieces.clone())
    }),
    at("4,096 bytes", |rng, pieces, _| fill(rng, pieces, 4096)),
    at("4,097 bytes", |rng, pieces, _| fill(rng, pieces, 4097)),
    at("4,096 bytes of frames and 0Ah", |_, pieces, _| {
        fill_by_frames(pieces, 4096)
    }),
    at("4,097 bytes of frames and 0Ah", |_, pieces, _| {
        fill_by_frames(pieces, 4097)
    }),
    at("5,000 bytes", |rng, pieces, _| fill(rng, pieces, 5000)),
    at("00h behind", |_, pieces, _| behind(pieces, b"\x00")),
    at("1Ah behind", |_, pieces, _| behind(pieces, b"\x1A")),
    at("a space behind", |_, pieces, _| behind(pieces, b" ")),
    at("0Dh behind", |_, pieces, _| behind(pieces, b"\r")),
    at("0Ah behind", |_, pieces, _| behind(pieces, b"\n")),
    at("0Dh 0Ah behind", |_, pieces, _| behind(pieces, b"\r\n")),
    at("3Ah behind", |_, pieces, _| behind(pieces, b":")),
    at("a frame without 0Ah behind", |_, pieces, _| {
        let last = pieces[10].clone();
        behind(pieces, &last[..268]);
    }),
    at("no 0Dh in all frames", |_, pieces, _| {
        for piece in pieces {
            piece.remove(piece.len() - 2);
        }
    }),
    at("no 0Ah in all frames", |_, pieces, _| {
        for piece in pieces {
            piece.pop();
        }
    }),
    at("0Dh for 3Ah in all frames", |_, pieces, _| {
        for piece in pieces {
            piece[0] = b'\r';
        }
    }),
    at("no ends in all frames", |_, pieces, _| {
        for piece in pieces {
            piece.truncate(piece.len() - 2);
        }
    }),
];

/// The same frames again, as far as they go, and then 0Ah.
fn fill_by_frames(pieces: &mut Vec<Vec<u8>>, length: usize) {
    let mut more = pieces.concat();
    more.extend(pieces[..4].concat());
    more.resize(length, b'\n');
    *pieces = vec![more];
}
