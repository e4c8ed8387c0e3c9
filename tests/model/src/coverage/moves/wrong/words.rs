//! Movers that add other words.

use super::{cleared, done, order, place, right_place, rows_end, word, Wrong};
use crate::coverage::moves::{item_sum, parts_held, Call, UP};
use crate::items::{sum as total, Item, ITEMS, WORDS};

pub const WRONG: [Wrong; 23] = [
    ("words 0", word(|_, _| 0), UP),
    (
        "words left",
        done(|call, target| {
            if call.up {
                target[WORDS].copy_from_slice(&call.target[WORDS]);
            }
        }),
        UP,
    ),
    (
        "words of the target's old bytes",
        word(|call, item| item_sum(call.target, item)),
        UP,
    ),
    ("low byte first", order(|[high, low]| [low, high]), UP),
    (
        "remainder by 65,535",
        word(|call, item| call.sum(item) % 65_535),
        UP,
    ),
    (
        "held at 65,535",
        word(|call, item| call.sum(item).min(65_535)),
        UP,
    ),
    (
        "remainder by 256",
        word(|call, item| call.sum(item) % 256),
        UP,
    ),
    (
        "bytes as signed",
        word(|call, item| {
            let bytes = bytes_of(call, item).iter();
            bytes.map(|&byte| i32::from(byte as i8)).sum::<i32>() as u32
        }),
        UP,
    ),
    (
        "first byte not counted",
        word(|call, item| total(&bytes_of(call, item)[1..])),
        UP,
    ),
    (
        "last byte not counted",
        word(|call, item| total(&bytes_of(call, item)[..item.bytes - 1])),
        UP,
    ),
    (
        "row count not counted",
        word(|call, item| match item.commands[0] {
            62 => total(&bytes_of(call, item)[1..]),
            _ => call.sum(item),
        }),
        UP,
    ),
    (
        "bytes behind the rows not counted",
        word(
            |call, item| match (item.commands[0], bytes_of(call, item)) {
                (62, table) => total(&table[..rows_end(table)]),
                (_, bytes) => total(bytes),
            },
        ),
        UP,
    ),
    (
        "reserve not counted",
        word(
            |call, item| match (item.commands[0], bytes_of(call, item)) {
                (53, cell) => total(&cleared(cell)),
                (_, bytes) => total(bytes),
            },
        ),
        UP,
    ),
    (
        "parts not held not counted",
        word(|call, item| match item.commands[0] {
            59 => held_total(call, item),
            _ => call.sum(item),
        }),
        UP,
    ),
    (
        "first part alone counted",
        word(|call, item| total(&bytes_of(call, item)[..item.bytes.min(128)])),
        UP,
    ),
    (
        "last word left 0",
        word(|call, item| match item.word {
            23_815 => 0,
            _ => call.sum(item),
        }),
        UP,
    ),
    (
        "next item's word",
        place(|item| (right_place(item) + 62) % 64),
        UP,
    ),
    (
        "table by its number by 10",
        place(|item| match item.commands[0] {
            59 => 2 * usize::from(item.number % 10 - 1),
            _ => right_place(item),
        }),
        UP,
    ),
    (
        "additional tables first",
        place(|item| match item.commands[0] {
            59 => (right_place(item) + 16) % 32,
            _ => right_place(item),
        }),
        UP,
    ),
    (
        "constants before tables",
        place(|item| match item.commands[0] {
            53 => right_place(item) - 32,
            59 => right_place(item) + 16,
            _ => right_place(item),
        }),
        UP,
    ),
    (
        "error tables before constants",
        place(|item| match item.commands[0] {
            53 => right_place(item) + 16,
            62 => right_place(item) - 16,
            _ => right_place(item),
        }),
        UP,
    ),
    (
        "error tables from 0",
        place(|item| match item.commands[0] {
            62 => 48 + 2 * usize::from(item.number % 8),
            _ => right_place(item),
        }),
        UP,
    ),
    (
        "constants from 1",
        place(|item| match item.commands[0] {
            53 => 32 + 2 * usize::from((item.number + 7) % 8),
            _ => right_place(item),
        }),
        UP,
    ),
];

fn bytes_of<'a>(call: &Call<'a>, item: &Item) -> &'a [u8] {
    &call.source[item.offset..item.offset + item.bytes]
}

/// The sum of the parts of a table that are held.
fn held_total(call: &Call, table: &Item) -> u32 {
    let mut tables = ITEMS.iter().zip(parts_held(call.source));
    let held = tables.find(|(item, _)| item.word == table.word);
    let (_, held) = held.expect("a table");
    let parts = bytes_of(call, table).chunks_exact(128).enumerate();
    let parts = parts.filter(|(part, _)| held >> part & 1 == 1);
    parts.map(|(_, rows)| total(rows)).sum()
}
