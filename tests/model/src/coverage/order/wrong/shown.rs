//! Blocks that leave other words, or answer or refuse a list otherwise.

use super::{body, held, refuses, replies, total, word, Wrong};
use crate::cells::Cell;
use crate::coverage::order::{EITHER, SERVE};

pub const WRONG: [Wrong; 16] = [
    // The parts held.
    (
        "bit turned by a repeat",
        held(|word, bit| word ^ bit),
        SERVE,
    ),
    ("bit added once more", held(|word, bit| word + bit), SERVE),
    ("bits of other parts cleared", held(|_, bit| bit), SERVE),
    ("bit not set", held(|word, _| word), SERVE),
    // The signatures.
    (
        "repeat adds what came alone",
        word(|step, word, left, came| match step.again() {
            true => word + came,
            false => word - left + came,
        }),
        EITHER,
    ),
    (
        "repeat takes off what left alone",
        word(|step, word, left, came| match step.again() {
            true => word - left,
            false => word - left + came,
        }),
        EITHER,
    ),
    (
        "word left by a repeat",
        word(|step, word, left, came| match step.again() {
            true => word,
            false => word - left + came,
        }),
        EITHER,
    ),
    (
        "what left as before the list",
        word(|step, word, _, came| {
            let place = step.cell().map(Cell::place).unwrap_or_default();
            word - total(&step.list.start[place]) + came
        }),
        EITHER,
    ),
    (
        "word made true by a repeat",
        word(
            |step, word, left, came| match step.cell().and_then(Cell::item) {
                Some(item) if step.again() => i32::from(item.full_sum(step.image)) - left + came,
                _ => word - left + came,
            },
        ),
        SERVE,
    ),
    (
        "word as if the table held this alone",
        word(|_, _, _, came| came),
        EITHER,
    ),
    // The replies.
    (
        "answered as before the list",
        replies(|step, _| step.reply_on(&step.list.start)),
        EITHER,
    ),
    (
        "signature as before the list",
        replies(|step, right| match body(step.frame())[1] {
            55 | 61 | 64 => step.reply_on(&step.list.start),
            _ => right,
        }),
        EITHER,
    ),
    (
        "equal frame answered as at first",
        replies(|step, right| match step.equal() {
            Some(before) => step.replies[before].clone(),
            None => right,
        }),
        EITHER,
    ),
    (
        "answered as behind the list",
        replies(|step, _| step.reply_on(&step.list.end)),
        EITHER,
    ),
    // The numbers.
    (
        "repeat refused",
        refuses(|step| match step.accepted() && step.again() {
            true => 11,
            false => step.number(),
        }),
        EITHER,
    ),
    (
        "equal frame refused",
        refuses(|step| match step.accepted() && step.equal().is_some() {
            true => 11,
            false => step.number(),
        }),
        EITHER,
    ),
];
