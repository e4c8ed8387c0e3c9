//! Blocks that serve a list in another order, or store too little, too much, at
//! another place or otherwise.

use super::{bytes, cell, order, stores, Step, Wrong};
use crate::cells::{Cell, Deed};
use crate::coverage::order::{EITHER, SEALED};

pub const WRONG: [Wrong; 27] = [
    // The order.
    (
        "list served backwards",
        order(|deeds| (0..deeds.len()).rev().collect()),
        EITHER,
    ),
    (
        "writes served first",
        order(|deeds| first(deeds, |deed| deed.writes.is_some())),
        EITHER,
    ),
    (
        "reads served first",
        order(|deeds| first(deeds, |deed| deed.writes.is_none())),
        EITHER,
    ),
    (
        "parts served first",
        order(|deeds| first(deeds, |deed| matches!(deed.written(), Some(Cell::Part(..))))),
        EITHER,
    ),
    // What is stored.
    (
        "first write kept",
        stores(|step| step.accepted() && !step.again()),
        EITHER,
    ),
    (
        "third write lost",
        stores(|step| step.accepted() && step.writes() < 2),
        EITHER,
    ),
    (
        "held part not written over",
        stores(|step| step.accepted() && !step.is_held()),
        EITHER,
    ),
    (
        "repeat lost if read between",
        stores(|step| step.accepted() && !(step.again() && step.read_since())),
        EITHER,
    ),
    (
        "repeat lost if not read between",
        stores(|step| step.accepted() && (!step.again() || step.read_since())),
        EITHER,
    ),
    (
        "lost behind a refused one",
        stores(|step| step.accepted() && !step.refused_before()),
        EITHER,
    ),
    (
        "equal frame not stored again",
        stores(|step| step.accepted() && step.equal().is_none()),
        EITHER,
    ),
    (
        "refused 6 or 7 and stored",
        stores(|step| matches!(step.number(), 0 | 6 | 7)),
        EITHER,
    ),
    (
        "refused 11 and stored",
        stores(|step| matches!(step.number(), 0 | 11)),
        EITHER,
    ),
    (
        "refused and stored if written before",
        stores(|step| step.accepted() || step.again()),
        EITHER,
    ),
    (
        "refused 16 and stored",
        stores(|step| matches!(step.number(), 0 | 16)),
        SEALED,
    ),
    (
        "refused 16, stored when sent again",
        stores(|step| step.number() == 16 && step.refused_before()),
        SEALED,
    ),
    // Where it is stored.
    (
        "repeat in the next part",
        cell(|step, cell| match cell {
            Cell::Part(table, part) if step.again() => Cell::Part(table, 1 + part % 11),
            _ => cell,
        }),
        EITHER,
    ),
    (
        "repeat in the lowest part missing",
        cell(|step, cell| match cell {
            Cell::Part(table, _) if step.is_held() => lowest_missing(step, table, cell),
            _ => cell,
        }),
        EITHER,
    ),
    (
        "repeat in table 1 to 8",
        cell(|step, cell| match cell {
            Cell::Part(table, part) if step.again() => Cell::Part(1 + (table - 1) % 10, part),
            _ => cell,
        }),
        EITHER,
    ),
    (
        "repeat in the next channel",
        cell(|step, cell| match cell {
            Cell::Constants(channel) if step.again() => Cell::Constants((channel + 1) % 8),
            _ => cell,
        }),
        EITHER,
    ),
    (
        "repeat in the next error table",
        cell(|step, cell| match cell {
            Cell::Errors(number) if step.again() => Cell::Errors(1 + number % 8),
            _ => cell,
        }),
        EITHER,
    ),
    // What is stored there.
    (
        "held part joined by or",
        bytes(|step, held, came| match step.is_held() {
            true => joined(held, came, |old, new| old | new),
            false => came.to_vec(),
        }),
        EITHER,
    ),
    (
        "held part joined by exclusive or",
        bytes(|step, held, came| match step.is_held() {
            true => joined(held, came, |old, new| old ^ new),
            false => came.to_vec(),
        }),
        EITHER,
    ),
    (
        "zeros not stored in a repeat",
        bytes(|step, held, came| match step.again() {
            true => joined(held, came, |old, new| if new == 0 { old } else { new }),
            false => came.to_vec(),
        }),
        EITHER,
    ),
    (
        "old rows left behind fewer",
        bytes(|step, held, came| match step.cell() {
            Some(Cell::Errors(_)) => {
                let end = 1 + 3 * usize::from(came[0]);
                [&came[..end], &held[end..]].concat()
            }
            _ => came.to_vec(),
        }),
        EITHER,
    ),
    (
        "last byte of a repeat lost",
        bytes(|step, held, came| match step.again() {
            true => [&came[..came.len() - 1], &held[held.len() - 1..]].concat(),
            false => came.to_vec(),
        }),
        EITHER,
    ),
    (
        "first byte of a repeat lost",
        bytes(|step, held, came| match step.again() {
            true => [&held[..1], &came[1..]].concat(),
            false => came.to_vec(),
        }),
        EITHER,
    ),
];

/// The places of those that are taken first, then those of the others.
fn first(deeds: &[Deed], taken: fn(&Deed) -> bool) -> Vec<usize> {
    let places = 0..deeds.len();
    let (mut first, others): (Vec<_>, Vec<_>) = places.partition(|&place| taken(&deeds[place]));
    first.extend(others);
    first
}

/// The lowest part of a table that is not held, or this one if all are.
fn lowest_missing(step: &Step, table: u8, this: Cell) -> Cell {
    let mut parts = (1..=11).map(|part| Cell::Part(table, part));
    let missing = |cell: &Cell| {
        let (byte, bit) = cell.bit().expect("a part has one");
        step.image[byte] & bit == 0
    };
    parts.find(missing).unwrap_or(this)
}

fn joined(held: &[u8], came: &[u8], join: fn(u8, u8) -> u8) -> Vec<u8> {
    let bytes = held.iter().zip(came);
    bytes.map(|(&old, &new)| join(old, new)).collect()
}
