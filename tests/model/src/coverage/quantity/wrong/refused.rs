//! Answerers that judge in another order, or give a refusal something else.

use super::{last, named, Answerer, Meant, Wrong, RIGHT};

const fn order(order: [u8; 5]) -> Answerer {
    Answerer { order, ..RIGHT }
}

const fn refuses(refuses: fn(&Meant, u8) -> (u8, u32)) -> Answerer {
    Answerer { refuses, ..RIGHT }
}

const ORDERS: [(&str, Answerer); 8] = [
    ("10 before 1", order([10, 1, 12, 13, 14])),
    ("12 before 1", order([12, 1, 10, 13, 14])),
    ("13 before 1", order([13, 1, 10, 12, 14])),
    ("14 before 1", order([14, 1, 10, 12, 13])),
    ("13 before 12", order([1, 10, 13, 12, 14])),
    ("14 before 12", order([1, 10, 14, 12, 13])),
    ("14 before 13", order([1, 10, 12, 14, 13])),
    ("14, 13, 12 and then 10", order([1, 14, 13, 12, 10])),
];

const REFUSALS: [(&str, Answerer); 16] = [
    (
        "12 given as 10",
        refuses(|_, number| given_as(number, 12, 10)),
    ),
    (
        "13 given as 11",
        refuses(|_, number| given_as(number, 13, 11)),
    ),
    (
        "13 given as 12",
        refuses(|_, number| given_as(number, 13, 12)),
    ),
    (
        "14 given as 10",
        refuses(|_, number| given_as(number, 14, 10)),
    ),
    (
        "14 given as 11",
        refuses(|_, number| given_as(number, 14, 11)),
    ),
    (
        "14 given as 13",
        refuses(|_, number| given_as(number, 14, 13)),
    ),
    (
        "10 given as 12",
        refuses(|_, number| given_as(number, 10, 12)),
    ),
    (
        "below row 1 volume 0",
        refuses(|m, number| beyond(m, number, false)),
    ),
    (
        "above row 352 volume 0",
        refuses(|m, number| beyond(m, number, true)),
    ),
    (
        "1 with a volume",
        refuses(|m, number| (number, with(m, number == 1))),
    ),
    (
        "12 with a volume",
        refuses(|m, number| (number, with(m, number == 12))),
    ),
    (
        "13 with a volume",
        refuses(|m, number| (number, with(m, number == 13))),
    ),
    (
        "14 with a volume",
        refuses(|m, number| (number, with(m, number == 14))),
    ),
    (
        "10 with volume 65,535",
        refuses(|_, number| (number, all_ones(number, 10))),
    ),
    (
        "14 with volume 65,535",
        refuses(|_, number| (number, all_ones(number, 14))),
    ),
    (
        "all refusals with the level",
        refuses(|m, number| (number, m.level)),
    ),
];

fn given_as(number: u8, one: u8, other: u8) -> (u8, u32) {
    (if number == one { other } else { number }, 0)
}

/// A level beyond one end of the rows is answered with 0.
fn beyond(meant: &Meant, number: u8, above: bool) -> (u8, u32) {
    let is_beyond = number == 14 && (meant.level > last(meant)) == above;
    (if is_beyond { 0 } else { number }, 0)
}

/// The volume that the rows would give, if there is any.
fn with(meant: &Meant, given: bool) -> u32 {
    match given && !meant.rows.is_empty() {
        true => RIGHT.volume(meant),
        false => 0,
    }
}

fn all_ones(number: u8, one: u8) -> u32 {
    if number == one {
        65_535
    } else {
        0
    }
}

pub fn wrong() -> Vec<Wrong> {
    let lists: [&[(&str, Answerer)]; 2] = [&ORDERS, &REFUSALS];
    lists.into_iter().flat_map(named).collect()
}
