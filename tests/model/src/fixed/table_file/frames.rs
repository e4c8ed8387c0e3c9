//! Files that are not eleven good frames.

use super::{checked, even_contents, even_frames, with_frame, PLACES};
use crate::fixed::Step;
use crate::streams::{frame, BESIDE_DIGITS};

/// A frame of the even table with one character that is another.
fn with_character(place: usize, at: usize, character: u8) -> Vec<u8> {
    let mut text = even_frames()[place].clone();
    text[at] = character;
    text
}

/// One frame of eleven is no good one.
pub fn frames() -> Vec<Step> {
    let mut steps = Vec::new();
    for place in PLACES {
        let good = even_frames()[place].clone();
        let mut bad = |rule, text: &[u8]| steps.push(with_frame(rule, place, text).refused(17));
        bad("a digit too few", &[&good[..100], &good[101..]].concat());
        bad(
            "a digit too many",
            &[&good[..100], b"0", &good[100..]].concat(),
        );
        // A byte of 00h more leaves the sum, so that the length alone is wrong.
        bad(
            "a byte too many",
            &[&good[..265], b"00", &good[265..]].concat(),
        );
        bad("two bytes alone", b":01FF\r\n");
        bad("no byte", b":\r\n");
        bad("another first byte", &with_character(place, 0, b';'));
        bad("no first byte", &good[1..]);
        bad("another byte for 0Dh", &with_character(place, 267, b'0'));
        bad("no 0Dh", &[&good[..267], b"\n"].concat());
        bad("0Ah before 0Dh", &[&good[..267], b"\n\r"].concat());
        bad("the first digit", &with_character(place, 1, b'G'));
        bad("the last digit", &with_character(place, 266, b'g'));
        bad("0Ah inside", &with_character(place, 100, b'\n'));
        let (checksum, more) = (
            &good[265..267],
            frame(&[&even_contents(place)[..], &[1]].concat()),
        );
        let other = if checksum == b"00" { b"01" } else { b"00" };
        bad("another checksum", &[&good[..265], other, b"\r\n"].concat());
        bad("a body of 134 bytes", &more);
        bad("0Ah alone before it", &[b"\n", &good[..]].concat());
        bad("0Dh 0Ah alone before it", &[b"\r\n", &good[..]].concat());
        bad("a frame left out", b"");
        bad("a frame twice", &[&good[..], &good[..]].concat());
        bad("a frame without its 0Ah", &good[..268]);
        bad("a frame without its end", &good[..267]);
        let wrong = [&good[..265], other, b"\r\n", &good[..]].concat();
        bad("another checksum, and then the frame", &wrong);
        bad(
            "another frame before it",
            &[b":0132CD\r\n", &good[..]].concat(),
        );
    }
    for character in BESIDE_DIGITS {
        let text = with_character(6, 33, character);
        steps.push(with_frame("a character beside the digits", 6, &text).refused(17));
    }
    steps
}

/// Pieces and lengths of the whole file.
pub fn pieces() -> Vec<Step> {
    let good = even_frames().concat();
    let mut steps = vec![checked("nothing wrong", &good)];
    let mut bad = |rule, file: &[u8]| steps.push(checked(rule, file).refused(17));
    bad("no byte at all", b"");
    bad("0Ah alone", b"\n");
    bad("eleven times 0Ah", &[b'\n'; 11]);
    bad("eleven times 0Dh 0Ah", &b"\r\n".repeat(11));
    bad("one frame", &good[..269]);
    bad("ten frames", &good[..2690]);
    bad("ten frames and a byte", &good[..2691]);
    bad("the last 0Ah left out", &good[..2958]);
    bad("the last 0Dh 0Ah left out", &good[..2957]);
    for behind in [
        &b"\x00"[..],
        b" ",
        b"\r",
        b"\n",
        b":",
        b"\x1A",
        b"\r\n",
        b":0132CD\r\n",
        b":0132CE\r\n",
    ] {
        bad("bytes behind", &[&good[..], behind].concat());
        bad("bytes in front", &[behind, &good[..]].concat());
    }
    let filled = |length: usize, byte: u8| {
        let mut file = good.clone();
        file.resize(length, byte);
        file
    };
    for byte in *b"\n0" {
        bad("4,096 bytes", &filled(4096, byte));
        bad("4,097 bytes", &filled(4097, byte));
        bad("5,000 bytes", &filled(5000, byte));
    }
    bad("all frames twice", &good.repeat(2));
    bad("4,096 bytes of frames", &good.repeat(2)[..4096]);
    bad("4,097 bytes of frames", &good.repeat(2)[..4097]);
    let without = |byte: u8| -> Vec<u8> {
        good.iter()
            .copied()
            .filter(|other| *other != byte)
            .collect()
    };
    bad("no 0Dh at all", &without(b'\r'));
    bad("no 0Ah at all", &without(b'\n'));
    bad("no 3Ah at all", &without(b':'));
    steps
}
