//! Document 02, wish 8: blocks already in the field.

use super::signatures::changed_image;
use super::{image_at, put, put_sealed};
use crate::block::{build, held_parts, move_down, move_up, take_apart, Refusal};
use crate::items::{item, ITEMS};
use crate::probe::{self, digest};
use crate::streams::{ask, good_data, piece, session, Rng, COMMANDS};

const FIRST: usize = 23_753;
const SECOND: usize = 23_817;

/// A way to move, the version and the length of its source, and the length of
/// its target.
type Way = (
    fn(&[u8], &mut [u8]) -> Result<(), Refusal>,
    u8,
    usize,
    usize,
);

const WAYS: [Way; 2] = [(move_up, 1, FIRST, SECOND), (move_down, 2, SECOND, FIRST)];

fn up(image: &[u8]) -> Vec<u8> {
    let mut target = vec![0xD7; SECOND];
    assert_eq!(move_up(image, &mut target), Ok(()));
    target
}

fn down(image: &[u8]) -> Vec<u8> {
    let mut target = vec![0xD7; FIRST];
    assert_eq!(move_down(image, &mut target), Ok(()));
    target
}

/// A version 1 image with any bytes that are not judged.
fn first_image(rng: &mut Rng) -> Vec<u8> {
    let mut image = changed_image(rng);
    let any = rng.bytes(11);
    image[6..17].copy_from_slice(&any);
    image[4] = 1;
    image.truncate(FIRST);
    image
}

/// A version 2 image with true words. No move makes them.
fn with_true_words(mut image: Vec<u8>) -> Vec<u8> {
    image[4] = 2;
    image.resize(SECOND, 0);
    for item in &ITEMS {
        let word = item.full_sum(&image).to_be_bytes();
        image[item.word..item.word + 2].copy_from_slice(&word);
    }
    image
}

/// A block of version 1 under today's rules for frames. It keeps no words: it
/// has them full of a byte while it serves a frame, and answers a signature by
/// adding up.
fn put_first(image: &mut [u8], frame: &[u8], sealed: bool) -> (u8, String) {
    let mut today = image.to_vec();
    today[4] = 2;
    today.resize(SECOND, 0x6B);
    let (number, reply) = match sealed {
        false => put(&mut today, frame),
        true => put_sealed(&mut today, frame),
    };
    image[5..].copy_from_slice(&today[5..FIRST]);
    (number, added_up(image, reply))
}

/// The reply with its signature, if it has one, added up from the image.
fn added_up(image: &[u8], reply: String) -> String {
    let (mut contents, mut text) = ([0; 132], [0; 269]);
    let frame = format!("{reply}\r\n");
    if take_apart(frame.as_bytes(), &mut contents) != Ok(5) || !matches!(contents[1], 55 | 61 | 64)
    {
        return reply;
    }
    let item = item(contents[1], contents[2]).expect("it was answered");
    contents[3..5].copy_from_slice(&item.full_sum(image).to_be_bytes());
    let length = build(&contents[..5], &mut text).expect("there is room");
    String::from_utf8_lossy(&text[..length - 2]).into_owned()
}

/// Frames of all kinds, some of them sealed, with signatures of any item among
/// them.
fn frames(rng: &mut Rng, count: usize) -> Vec<(Vec<u8>, bool)> {
    let mut frames = Vec::new();
    while frames.len() < count {
        for contents in session(rng, 1) {
            frames.push((piece(rng, &contents), rng.percent(20)));
        }
        let item = &ITEMS[rng.below(32)];
        let asked = ask(1, item.commands[2], &[item.number]);
        frames.push((asked, rng.percent(50)));
        let command = rng.pick(&COMMANDS);
        frames.push((ask(1, command, &good_data(rng, command)), false));
    }
    frames
}

fn put_either(image: &mut [u8], frame: &[u8], sealed: bool) -> (u8, String) {
    match sealed {
        false => put(image, frame),
        true => put_sealed(image, frame),
    }
}

#[test]
fn both_blocks_answer_alike_after_a_move_up() {
    let mut rng = Rng::new(1, 30);
    for _ in 0..30 {
        let mut first = first_image(&mut rng);
        let mut second = up(&first);
        for (frame, sealed) in frames(&mut rng, 60) {
            let before = put_first(&mut first, &frame, sealed);
            assert_eq!(put_either(&mut second, &frame, sealed), before);
            // Moved then served is served then moved.
            assert!(second == up(&first), "{before:?}");
            assert!(first == down(&second), "{before:?}");
        }
    }
}

#[test]
fn both_blocks_answer_alike_after_a_move_down_of_true_words() {
    let mut rng = Rng::new(1, 31);
    for _ in 0..30 {
        let mut second = with_true_words(first_image(&mut rng));
        let mut first = down(&second);
        for (frame, sealed) in frames(&mut rng, 60) {
            let before = put_either(&mut second, &frame, sealed);
            assert_eq!(put_first(&mut first, &frame, sealed), before);
            assert!(first == down(&second), "{before:?}");
        }
    }
}

/// What is stored does not depend on the words, and neither does what is
/// answered but for the signature of an item whose word is false.
#[test]
fn false_words_change_the_answers_of_signatures_alone() {
    let mut rng = Rng::new(1, 32);
    let mut otherwise = 0;
    for round in 0..30 {
        let mut second = with_true_words(first_image(&mut rng));
        for item in ITEMS.iter().filter(|item| item.word % 3 == round % 3) {
            second[item.word + rng.below(2)] ^= rng.between(1, 255);
        }
        let mut first = down(&second);
        for (frame, sealed) in frames(&mut rng, 60) {
            let before = put_either(&mut second, &frame, sealed);
            let after = put_first(&mut first, &frame, sealed);
            assert!(first == down(&second));
            let mut asked = [0; 132];
            let signed = take_apart(&frame, &mut asked).is_ok() && before.0 == 0;
            match item(asked[1], asked[2]) {
                Some(item) if signed && item.commands[2] == asked[1] => {
                    assert_eq!(after != before, item.is_false(&second));
                    otherwise += usize::from(after != before);
                }
                _ => assert_eq!(after, before),
            }
        }
    }
    assert!(otherwise > 100, "only {otherwise} answers");
}

#[test]
fn there_and_back_gives_the_same_bytes() {
    let mut rng = Rng::new(1, 33);
    for _ in 0..200 {
        let first = first_image(&mut rng);
        let second = up(&first);
        assert!(second == with_true_words(first.clone()));
        assert!(down(&second) == first);
        assert!(up(&down(&second)) == second);
        // With false words all but these come back.
        let any = changed_image(&mut rng);
        let back = up(&down(&any));
        assert!(back[..FIRST] == any[..FIRST]);
        assert!(ITEMS.iter().all(|item| !item.is_false(&back)));
    }
}

#[test]
fn images_reached_by_calls_come_back() {
    let mut rng = Rng::new(1, 34);
    let mut image = image_at(1);
    for command in COMMANDS.repeat(20) {
        let mut other = up(&down(&image));
        assert!(other == image);
        let frame = ask(1, command, &good_data(&mut rng, command));
        assert_eq!(put(&mut other, &frame), put(&mut image, &frame));
        let table = u64::from(rng.between(0, 19));
        assert_eq!(held_parts(&other, table), held_parts(&image, table));
    }
}

#[test]
fn a_full_table_has_the_remainder_of_its_sum() {
    let mut image = image_at(1);
    image[4] = 1;
    image.truncate(FIRST);
    image[1225..1225 + 1408].fill(255);
    image[712] = 255; // the last of the constants
    image[FIRST - 1] = 1;
    let moved = up(&image);
    assert_eq!(moved[FIRST..FIRST + 2], [0x7A, 0x80]);
    assert_eq!(moved[23_799..23_801], [0x00, 0xFF]);
    assert_eq!(moved[23_783..23_785], [0x00, 0x01]);
    assert_eq!(moved[3..6], [0, 2, 1]);
    assert_eq!(moved[FIRST - 1], 1);
}

/// The source of a way, and a buffer full of other bytes for its target.
fn buffers(rng: &mut Rng, (_, version, ..): Way) -> (Vec<u8>, Vec<u8>) {
    let image = match version {
        1 => first_image(rng),
        _ => changed_image(rng),
    };
    (image, vec![0x2F; 24_000])
}

#[test]
fn one_version_alone_is_taken() {
    let mut rng = Rng::new(1, 35);
    for way in WAYS {
        let (moved, version, _, length) = way;
        let (mut image, mut target) = buffers(&mut rng, way);
        for other in (0..=0xFFFF).filter(|&other| other != u16::from(version)) {
            image[3..5].copy_from_slice(&other.to_be_bytes());
            let outcome = moved(&image, &mut target[..length]);
            assert_eq!(outcome, Err(Refusal::Image), "version {other}");
        }
        assert!(target == [0x2F; 24_000]);
        image[3..5].copy_from_slice(&[0, version]);
        assert_eq!(moved(&image, &mut target[..length]), Ok(()));
    }
}

#[test]
fn one_length_alone_is_taken_of_either() {
    let mut rng = Rng::new(1, 36);
    for way in WAYS {
        let (moved, _, source_length, target_length) = way;
        let (mut image, mut target) = buffers(&mut rng, way);
        image.resize(24_000, 0);
        for length in 0..=24_000 {
            let source = &image[..length];
            if length != source_length {
                let outcome = moved(source, &mut target[..target_length]);
                assert_eq!(outcome, Err(Refusal::Image), "{length}");
            }
            if length != target_length {
                let source = &image[..source_length];
                let outcome = moved(source, &mut target[..length]);
                assert_eq!(outcome, Err(Refusal::Image), "{length}");
            }
        }
        assert!(target == [0x2F; 24_000]);
    }
}

/// From which value on a byte of a source refuses it.
fn limit(offset: usize) -> Option<u8> {
    match offset {
        17..49 if offset % 2 == 1 => Some(8),
        713..1225 if (offset - 713).is_multiple_of(64) => Some(22),
        _ => None,
    }
}

/// Of the tables about one byte in 30 is tried, and the last.
#[test]
fn no_other_byte_is_judged_and_each_is_kept() {
    let mut rng = Rng::new(1, 37);
    for way in WAYS {
        let (moved, version, length, target_length) = way;
        let mut image = image_at(1);
        image[4] = version;
        image.truncate(length);
        let tables = (1300..FIRST).step_by(rng.between(29, 31).into());
        for offset in (6..1300).chain(tables).chain(FIRST - 1..length) {
            let any = rng.between(1, 255);
            for byte in [any, limit(offset).map_or(255, |limit| limit - 1)] {
                image[offset] = byte;
                let mut target = vec![!byte; target_length];
                let outcome = moved(&image, &mut target);
                if limit(offset).is_some_and(|limit| byte >= limit) {
                    assert_eq!(outcome, Err(Refusal::Image), "at {offset}");
                    assert!(target.iter().all(|&old| old == !byte));
                } else {
                    assert_eq!(outcome, Ok(()), "at {offset}");
                    assert!(target[5..FIRST] == image[5..FIRST], "at {offset}");
                }
            }
            image[offset] = 0;
        }
        image[5] = 0;
        let outcome = moved(&image, &mut vec![0; target_length]);
        assert_eq!(outcome, Err(Refusal::Image));
    }
}

#[test]
fn probe_has_a_second_buffer_of_its_own_length() {
    let script = b"L\x00\x00\x02W\x05U\x58L\x00\x00\x01P\x00\x00\x00\x06U\x58D";
    let (two, one) = (digest(&[5, 5]), digest(&[6]));
    let empty = digest(&[0; SECOND]);
    let lines = [
        format!("U 1 {two} {empty}"),
        format!("U 1 {one} {two}"),
        format!("D 1 {two} {one}"),
    ];
    assert_eq!(probe::lines(script), lines);
    // The whole buffer is filled, whatever its length.
    let script = b"L\x00\x00\x00W\x07L\x00\x5D\xC0F\x01";
    let whole = digest(&[7; 24_000]);
    assert_eq!(probe::lines(script), [format!("F 1 {whole}")]);
}

#[test]
fn probe_moves_into_the_second_buffer() {
    let fresh = image_at(1);
    let first = down(&fresh);
    // Each into the second buffer, which then is the image.
    let script = b"F\x01XL\x00\x5C\xC9W\x11XDXUXD";
    let lines = [
        format!("F 0 {}", digest(&fresh)),
        format!("D 0 {} {}", digest(&fresh), digest(&first)),
        format!("U 0 {} {}", digest(&first), digest(&fresh)),
        format!("D 0 {} {}", digest(&fresh), digest(&first)),
    ];
    assert_eq!(probe::lines(script), lines);
}
