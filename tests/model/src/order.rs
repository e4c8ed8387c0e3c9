//! Document 02, wish 14: a list of frames may be served in any order in which
//! any two frames keep theirs whenever one writes a cell that the other reads or
//! writes. Each frame, matched by its place in the list, then has the same
//! number and reply, and the image ends the same: each cell holds its last
//! accepted write in the list, or its old value if there was none.
//!
//! An order is given by the places, in the list as written, of the frames in
//! turn. So equal frames are kept apart.

pub mod drawn;
pub mod lists;

use std::collections::BTreeMap;

use crate::cells::{Cell, Deed};
use crate::items::sum;
use crate::streams::Rng;

/// An order by chance that keeps that of every two frames which clash: next
/// comes any frame that waits for none before it.
pub fn draw(rng: &mut Rng, deeds: &[Deed]) -> Vec<usize> {
    let mut waiting: Vec<usize> = (0..deeds.len()).collect();
    let mut order = Vec::new();
    while !waiting.is_empty() {
        let free = |&at: &usize| {
            let mut before = waiting[..at].iter();
            before.all(|&earlier| !deeds[earlier].clashes(&deeds[waiting[at]]))
        };
        let free: Vec<usize> = (0..waiting.len()).filter(free).collect();
        order.push(waiting.remove(rng.pick(&free)));
    }
    order
}

/// The frames of a list in this order.
pub fn ordered(list: &[Vec<u8>], order: &[usize]) -> Vec<Vec<u8>> {
    order.iter().map(|&place| list[place].clone()).collect()
}

/// Whether an order has each place once and keeps the order of every two frames
/// that clash.
pub fn keeps(deeds: &[Deed], order: &[usize]) -> bool {
    let mut places = order.to_vec();
    places.sort();
    places.into_iter().eq(0..deeds.len())
        && turned(order).all(|[one, other]| !deeds[one].clashes(&deeds[other]))
}

/// The pairs of places that an order turns round, the one that was first in the
/// list first.
pub fn turned(order: &[usize]) -> impl Iterator<Item = [usize; 2]> + '_ {
    let behind = move |at: usize| order[at + 1..].iter().map(move |&place| [place, order[at]]);
    let pairs = (0..order.len()).flat_map(behind);
    pairs.filter(|[one, other]| one < other)
}

/// The image that a list must leave, without a frame of it being served. Of a
/// word only what left with the old bytes and what came with the last ones
/// counts, remainder by 65,536, so that a false one stays false by as much; what
/// came and left in between is gone from it again.
pub fn last_writes(image: &[u8], deeds: &[Deed]) -> Vec<u8> {
    let mut last: BTreeMap<Cell, &[u8]> = BTreeMap::new();
    for (cell, bytes) in deeds.iter().filter_map(|deed| deed.writes.as_ref()) {
        last.insert(*cell, bytes); // in place of an earlier one
    }
    let mut left = image.to_vec();
    for cell in Cell::all() {
        let Some(bytes) = last.get(&cell) else {
            continue; // its old value stays
        };
        left[cell.place()].copy_from_slice(bytes);
        if let Some((byte, bit)) = cell.bit() {
            left[byte] |= bit;
        }
        if let Some(item) = cell.item() {
            let (old, came) = (sum(&image[cell.place()]), sum(bytes));
            let word = u32::from(item.stored(&left)) + 65_536 + came - old;
            left[item.word..item.word + 2].copy_from_slice(&(word as u16).to_be_bytes());
        }
    }
    left
}
