//! Readings of a plain number that are not the block's: bits dropped, a sign
//! seen, bytes in another order.

use super::{Asked, Call, Kind};
use crate::block::{self, Switch};

/// A reading of the switch's number, and whether it is sealed by it.
type Sealed = (&'static str, fn(u64) -> bool);

pub const SWITCHES_READ: [Sealed; 13] = [
    ("0 sealed", |_| true),
    ("never sealed", |_| false),
    ("cut to 1 bit", |number| number % 2 != 0),
    ("cut to 7 bits", |number| number % 128 != 0),
    ("cut to 8 bits", |number| number as u8 != 0),
    ("cut to 16 bits", |number| number as u16 != 0),
    ("cut to 32 bits", |number| number as u32 != 0),
    ("cut to 63 bits", |number| number << 1 != 0),
    ("sealed by 1 alone", |number| number == 1),
    ("sealed by 2^64-1 alone", |number| number == u64::MAX),
    ("sealed up to 255 alone", |number| {
        (1..256).contains(&number)
    }),
    ("sealed above 255 alone", |number| number > 255),
    ("with a sign, sealed above 0", |number| number as i64 > 0),
];

/// A reading of a table's number.
type Table = (&'static str, fn(u64) -> u64);

pub const TABLES_READ: [Table; 7] = [
    ("cut to 5 bits", |number| number % 32),
    ("cut to 8 bits", |number| number % 256),
    ("cut to 16 bits", |number| number % 65_536),
    ("cut to 32 bits", |number| number % (1 << 32)),
    ("cut to 63 bits", |number| number % (1 << 63)),
    ("without its upper 8 bits", |number| number << 8 >> 8),
    ("low byte first", u64::swap_bytes),
];

pub fn kinds_of(call: &Call) -> Vec<Kind> {
    match (call.letter, call.asked) {
        ('Z', Asked::Serve(number, frame)) => of_switch(call, number, frame),
        ('J', Asked::Held(table)) => of_table(call, table),
        _ => Vec::new(),
    }
}

/// A wrong reading shows where the frame is answered otherwise with the switch
/// in the other position.
fn of_switch(call: &Call, number: u64, frame: &[u8]) -> Vec<Kind> {
    let served = |switch| {
        let (mut image, mut output) = (call.image_before.to_vec(), vec![0; call.room]);
        let answer = block::serve(switch, &mut image, frame, &mut output);
        (answer, image, output)
    };
    if served(Switch::Unsealed) == served(Switch::Sealed) {
        return Vec::new();
    }
    let readings = SWITCHES_READ.iter().enumerate();
    let wrong = readings.filter(|(_, (_, sealed))| sealed(number) != (number != 0));
    wrong.map(|(place, _)| Kind::WrongSwitch(place)).collect()
}

fn of_table(call: &Call, table: u64) -> Vec<Kind> {
    let held = |table| block::held_parts(call.image, table);
    let readings = TABLES_READ.iter().enumerate();
    let wrong = readings.filter(|(_, (_, read))| held(read(table)) != held(table));
    wrong.map(|(place, _)| Kind::WrongTable(place)).collect()
}
