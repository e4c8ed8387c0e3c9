//! Streams of document 02, wish 14. Each list is a stream as written, and the
//! next stream is the same list in another order.

use crate::block::Switch;
use crate::cells::Deed;
use crate::order::drawn::{deeds, Field};
use crate::order::{draw, ordered};
use crate::streams::Rng;

/// What a list is for, how it is drawn, and the other order.
type Case = (
    &'static str,
    fn(&mut Rng, &Field) -> Vec<Vec<u8>>,
    fn(&mut Rng, &[Deed]) -> Vec<usize>,
);

const CASES: [Case; 5] = [
    (
        "parts repeated",
        |rng, field| repeated(rng, field, &[59, 59, 59, 51]),
        draw,
    ),
    (
        "all else repeated",
        |rng, field| repeated(rng, field, &[62, 53, 77, 76, 51]),
        draw,
    ),
    ("list by chance", |rng, field| field.list(rng, 100), draw),
    (
        "longer list by chance",
        |rng, field| field.list(rng, 200),
        draw,
    ),
    (
        "list without a clash",
        |rng, field| field.apart(rng),
        |_, deeds| (0..deeds.len()).rev().collect(),
    ),
];

/// How many streams there are.
pub const STREAMS: usize = 2 * CASES.len();

/// The stream of that number, if there are so many.
pub fn stream(seed: u64, number: usize) -> Option<(String, Vec<u8>)> {
    let (name, make, other) = CASES.get(number / 2)?;
    // Both streams of a list draw it alike, and no other stream does.
    let mut rng = Rng::new(seed, 1 << 33 | (number / 2) as u64);
    let field = Field::new(&mut rng, 1);
    let list = make(&mut rng, &field);
    if number.is_multiple_of(2) {
        return Some((name.to_string(), list.concat()));
    }
    let order = other(&mut rng, &deeds(Switch::Unsealed, 1, &list));
    let name = format!("{name}, in another order");
    Some((name, ordered(&list, &order).concat()))
}

fn repeated(rng: &mut Rng, field: &Field, commands: &[u8]) -> Vec<Vec<u8>> {
    let mut list = Vec::new();
    for &command in commands {
        list.extend(field.repeated(rng, command));
    }
    list
}
