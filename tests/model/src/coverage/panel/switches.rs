//! The switch's number by its kind, and the commands that show it.

use super::{Asked, Call, Kind};
use crate::block::{self, Switch};
use crate::streams::{COMMANDS, WRITING};

/// A kind of number, and whether a number is of it, if it is of none before.
type Of = (&'static str, fn(u64) -> bool);

pub const SWITCHES: [Of; 11] = [
    ("0", |number| number == 0),
    ("1", |number| number == 1),
    ("2", |number| number == 2),
    ("3 to 254", |number| number < 255),
    ("255", |number| number == 255),
    ("2^64-1", |number| number == u64::MAX),
    ("2^63", |number| number == 1 << 63),
    ("a multiple of 2^32", |number| number % (1 << 32) == 0),
    ("a multiple of 65,536", |number| number % 65_536 == 0),
    ("a multiple of 256", |number| number % 256 == 0),
    ("any other", |_| true),
];

/// A call by a number shows it if the frame is served, or if it is a write that
/// is refused 16 and would have been served with 0.
pub fn kinds_of(call: &Call) -> Option<Kind> {
    let Asked::Serve(number, frame) = call.asked else {
        return None;
    };
    let shows = match call.number {
        0 => true,
        16 => served_with_0(call, frame),
        _ => false,
    };
    if call.letter != 'Z' || !shows {
        return None;
    }
    let mut contents = [0; 132];
    block::take_apart(frame, &mut contents).ok()?;
    let place = SWITCHES.iter().position(|(_, fits)| fits(number))?;
    Some(Kind::Switch(place, contents[1]))
}

fn served_with_0(call: &Call, frame: &[u8]) -> bool {
    let (mut image, mut output) = (call.image_before.to_vec(), [0; 269]);
    block::serve(Switch::Unsealed, &mut image, frame, &mut output).is_ok()
}

/// All that must not stay at 0, with a name for each.
pub fn columns() -> Vec<(Kind, String)> {
    let mut columns = Vec::new();
    for (place, (name, _)) in SWITCHES.iter().enumerate() {
        for command in COMMANDS {
            let outcome = match WRITING.contains(&command) && *name != "0" {
                true => "refused 16 alone",
                false => "served",
            };
            let name = format!("switch {name}: command {command} {outcome}");
            columns.push((Kind::Switch(place, command), name));
        }
    }
    columns
}
