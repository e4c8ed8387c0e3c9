//! Files of eleven good frames that are not those of one table, or not of each
//! part once, and files with two things wrong.

use super::{checked, even, even_contents, even_frames, frames_of, with_frame, PLACES};
use crate::fixed::Step;
use crate::streams::frame;

/// One byte of one frame, or of all of them, is another.
fn with_byte(rule: &'static str, places: &[usize], byte: usize, value: u8) -> Step {
    let mut frames = even_frames();
    for &place in places {
        let mut contents = even_contents(place);
        contents[byte] = value;
        frames[place] = frame(&contents);
    }
    checked(rule, &frames.concat())
}

const ALL: [usize; 11] = [0, 1, 2, 3, 4, 5, 6, 7, 8, 9, 10];

pub fn writes() -> Vec<Step> {
    let mut steps = Vec::new();
    for place in PLACES {
        for command in [58, 60, 50, 187, 0] {
            steps.push(with_byte("another command", &[place], 1, command).refused(18));
        }
        for length in [131, 130, 100, 4, 3, 2] {
            let short = frame(&even_contents(place)[..length]);
            steps.push(with_frame("a shorter body", place, &short).refused(18));
        }
        let read = frame(&[1, 60, 5, place as u8 + 1]);
        steps.push(with_frame("a request to read the part", place, &read).refused(18));
        for address in [0, 2, 129, 255] {
            steps.push(with_byte("another address", &[place], 0, address).refused(18));
        }
        for table in [4, 15, 0, 9, 10, 19, 133, 255] {
            steps.push(with_byte("another table", &[place], 2, table).refused(18));
        }
        // With address 5 and table 1 in it, where the others have 1 and 5.
        let mut turned = even_contents(place);
        turned.swap(0, 2);
        steps.push(with_frame("the other way round", place, &frame(&turned)).refused(18));
    }
    steps.push(with_byte("command 60 in all", &ALL, 1, 60).refused(18));
    steps.push(with_byte("address 0 in all", &ALL, 0, 0).refused(18));
    for table in [0, 9, 10, 19, 20, 21, 28, 37, 133, 254, 255] {
        steps.push(with_byte("no such table in all", &ALL, 2, table).refused(18));
    }
    steps.push(with_byte("another table in all", &ALL, 2, 18));
    steps.push(with_byte("another address in all", &ALL, 0, 255));
    steps.push(with_byte("two addresses", &ALL[6..], 0, 2).refused(18));
    steps.push(with_byte("two tables", &ALL[6..], 2, 15).refused(18));
    let short = ALL.map(|place| frame(&even_contents(place)[..131]));
    steps.push(checked("all bodies of 132 bytes", &short.concat()).refused(18));
    let masks = [&b":0132CD\r\n"[..]; 11].concat();
    steps.push(checked("eleven frames of another command", &masks).refused(18));
    steps
}

pub fn parts() -> Vec<Step> {
    let mut steps = Vec::new();
    for place in PLACES {
        for part in [0, 12, 13, 128, 255] {
            steps.push(with_byte("no such part", &[place], 3, part).refused(19));
        }
        let part = place as u8 + 1;
        steps.push(with_byte("a part and 16", &[place], 3, part + 16).refused(19));
        steps.push(with_byte("a part and 128", &[place], 3, part + 128).refused(19));
        let other = if place == 5 { 7 } else { 6 };
        steps.push(with_byte("a part twice", &[place], 3, other).refused(19));
        let copy = frame(&even_contents(usize::from(other) - 1));
        steps.push(with_frame("a frame twice", place, &copy).refused(19));
    }
    steps.push(with_byte("the part before it", &[10], 3, 10).refused(19));
    steps.push(with_byte("all parts alike", &ALL, 3, 4).refused(19));
    for (rule, from) in [("parts from 0", 0), ("parts from 2", 2)] {
        let frames = ALL.map(|place| {
            let mut contents = even_contents(place);
            contents[3] = from + place as u8;
            frame(&contents)
        });
        steps.push(checked(rule, &frames.concat()).refused(19));
    }
    // 1 and 6 for 3 and 4, which add up to the same.
    let mut frames = even_frames();
    for (place, part) in [(2, 1), (3, 6)] {
        let mut contents = even_contents(place);
        contents[3] = part;
        frames[place] = frame(&contents);
    }
    steps.push(checked("two parts twice", &frames.concat()).refused(19));
    steps
}

/// What is done to one frame for a number.
fn spoiled(number: u8, place: usize) -> Vec<u8> {
    let mut contents = even_contents(place);
    match number {
        18 => contents[1] = 60,
        19 => contents[3] = 12,
        // The second row of the part becomes the lowest one.
        20 => contents[8..12].fill(0),
        _ => {}
    }
    let mut text = frame(&contents);
    if number == 17 {
        text[0] = b';';
    }
    text
}

/// For each pair of numbers the lower one is given, be it for an earlier frame or
/// for a later one.
pub fn pairs() -> Vec<Step> {
    let mut steps = Vec::new();
    for low in 17..20 {
        for high in low + 1..=20 {
            for [of_low, of_high] in [[1, 8], [8, 1], [0, 10], [10, 0]] {
                let mut frames = even_frames();
                frames[of_low] = spoiled(low, of_low);
                frames[of_high] = spoiled(high, of_high);
                let step = checked("two things wrong", &frames.concat());
                steps.push(step.refused(low));
            }
        }
    }
    for order in [[17, 18, 19, 20], [20, 19, 18, 17]] {
        let mut frames = even_frames();
        for (place, number) in [2, 4, 6, 8].into_iter().zip(order) {
            frames[place] = spoiled(number, place);
        }
        steps.push(checked("four things wrong", &frames.concat()).refused(17));
    }
    // No frame is good as a write, and one more comes behind them.
    let mut frames = frames_of(0, 9, &even());
    frames.push(frames[0].clone());
    steps.push(checked("twelve frames of no table", &frames.concat()).refused(17));
    frames.truncate(10);
    steps.push(checked("ten frames of no table", &frames.concat()).refused(17));
    steps
}
