//! What wish 4 wants reached: sums that pass the test of a frame's checksum,
//! sums that do not, and frames that a wrong test would judge otherwise.

use crate::streams::end_around;

/// A kind of frame that comes to the test, told by its body and its number.
type Kind = (&'static str, fn(&[u8], u8) -> bool);

/// Sums are plain ones, with their carries; a total is what is left without
/// them.
pub const KINDS: [Kind; 7] = [
    // Serving cannot accept this one, since no image has address 0.
    ("0 or above 6, sum 0", |body, number| {
        number != 6 && sum(body) == 0
    }),
    ("0, sum 256", |body, number| number == 0 && sum(body) == 256),
    ("0, sum above 256", |body, number| {
        number == 0 && sum(body) > 256
    }),
    ("0, checksum 0", |body, number| {
        number == 0 && body.ends_with(&[0])
    }),
    ("6, total 1", |body, number| number == 6 && total(body) == 1),
    ("6, total 255", |body, number| {
        number == 6 && total(body) == 255
    }),
    ("6, another total", |body, number| {
        number == 6 && (2..255).contains(&total(body))
    }),
];

/// A test that is not the rule: what is wrong with it, and whether it takes a
/// body.
type Wrong = (&'static str, fn(&[u8]) -> bool);

pub const WRONG: [Wrong; 9] = [
    ("checksum left out", |body| total(contents(body)) == 0),
    ("first byte left out", |body| total(&body[1..]) == 0),
    ("carries added to the total", |body| {
        sum(body).is_multiple_of(255)
    }),
    ("carries added to the sum", |body| {
        body.ends_with(&[end_around(contents(body))])
    }),
    (CARRIES_KEPT, |body| sum(body) == 0),
    ("sum not inverted", |body| {
        u32::from(body[body.len() - 1]) == total(contents(body))
    }),
    ("1 not added", |body| total(body) == 255),
    ("exclusive or", |body| {
        body.iter().fold(0, |xor, byte| xor ^ byte) == 0
    }),
    ("first 128 bytes alone", |body| {
        total(&body[..body.len().min(128)]) == 0
    }),
];

/// The one wrong test that takes no frame which the rule refuses.
pub const CARRIES_KEPT: &str = "carries kept";

/// The body of a frame that comes to the test.
pub fn body(frame: &[u8]) -> Vec<u8> {
    bytes(&frame[1..frame.len() - 2])
}

/// The bytes that these characters, all of them digits, stand for.
pub fn bytes(digits: &[u8]) -> Vec<u8> {
    let half = |c| char::from(c).to_digit(16).expect("5 was not given");
    digits
        .chunks_exact(2)
        .map(|pair| (half(pair[0]) * 16 + half(pair[1])) as u8)
        .collect()
}

fn contents(body: &[u8]) -> &[u8] {
    &body[..body.len() - 1]
}

fn sum(bytes: &[u8]) -> u32 {
    bytes.iter().map(|&byte| u32::from(byte)).sum()
}

fn total(bytes: &[u8]) -> u32 {
    sum(bytes) % 256
}
