//! What document 02, wish 11 wants reached by drawn calls: sealed, each
//! number that a command can have, and the same frames unsealed right before
//! and right after. Fixed calls are not counted here; they are held to lines of
//! their own.

use std::io::{self, Write};

use super::{Came, Coverage, Thing};
use crate::block::{self, Switch, IMAGE_BYTES};
use crate::streams::{COMMANDS, READING, WRITING};

/// Stands for all commands that are not served, of which 0 is one.
const NO_COMMAND: u8 = 0;

#[derive(Clone, Copy, PartialEq, Eq, PartialOrd, Ord)]
pub enum Kind {
    /// A sealed call that gave this number.
    Number(u8),
    /// A sealed call refused 16 which unsealed would have given this number.
    Unsealed(u8),
    /// A sealed call refused 16 on an image in which something is stored.
    NotFresh,
    /// A sealed call refused 16 right after the same frame was written.
    AfterWritten,
    /// A frame written right after the same was refused 16.
    Written,
    /// A sealed call whose reply is not that of a fresh image.
    Shown,
    /// A sealed call that was served right after the same frame unsealed.
    AfterUnsealed,
    /// A frame served unsealed right after the same sealed.
    AfterSealed,
}

/// A kind, its name, and the commands that must have it.
type Row = (Kind, &'static str, &'static [u8]);

const ROWS: [Row; 22] = [
    (Kind::Number(0), "0", &READING),
    (Kind::Number(1), "1", &COLUMNS),
    (Kind::Number(2), "2", &COLUMNS),
    (Kind::Number(3), "3", &COLUMNS),
    (Kind::Number(4), "4", &COLUMNS),
    (Kind::Number(5), "5", &COLUMNS),
    (Kind::Number(6), "6", &COLUMNS),
    (Kind::Number(7), "7", &COLUMNS),
    (Kind::Number(8), "8", &[NO_COMMAND]),
    (Kind::Number(9), "9", &READING),
    (Kind::Number(10), "10", &[54, 55, 60, 61, 63, 64]),
    (Kind::Number(16), "16", &WRITING),
    (Kind::Unsealed(0), "16, unsealed 0", &WRITING),
    (Kind::Unsealed(9), "16, unsealed 9", &WRITING),
    (Kind::Unsealed(10), "16, unsealed 10", &[53, 59, 62]),
    (Kind::Unsealed(11), "16, unsealed 11", &[53, 62, 76, 77]),
    (Kind::NotFresh, "16, image not fresh", &WRITING),
    (Kind::AfterWritten, "16 after 0 unsealed", &WRITING),
    (Kind::Written, "0 unsealed after 16", &WRITING),
    (Kind::Shown, "0, reply not fresh", &READING),
    (Kind::AfterUnsealed, "0 after 0 unsealed", &READING),
    (Kind::AfterSealed, "0 unsealed after 0", &READING),
];

const COLUMNS: [u8; 15] = [
    50, 51, 53, 54, 55, 59, 60, 61, 62, 63, 64, 76, 77, 78, NO_COMMAND,
];

/// The command of a frame, which may be a bad one, if there are digits at its
/// place.
fn command_in(frame: &[u8]) -> Option<u8> {
    let half = |place| char::from(*frame.get(place)?).to_digit(16);
    let command = (half(3)? * 16 + half(4)?) as u8;
    match COMMANDS.contains(&command) {
        true => Some(command),
        false => Some(NO_COMMAND),
    }
}

/// What a good frame gets unsealed from a fresh image of its address: the
/// number, and the reply without its last two bytes.
fn unsealed_on_fresh(frame: &[u8]) -> (u8, Vec<u8>) {
    let (mut image, mut output) = (vec![0; IMAGE_BYTES], [0; 269]);
    block::take_apart(frame, &mut output).expect("no number up to 6 was given");
    block::fresh(&mut image, output[0]).expect("7 was not given");
    match block::serve(Switch::Unsealed, &mut image, frame, &mut output) {
        Ok(length) => (0, output[..length - 2].to_vec()),
        Err(refusal) => (refusal.number(), Vec::new()),
    }
}

fn kinds_of(came: &Came) -> Vec<Kind> {
    // The call and the number before, if they had the same frame.
    let before = came.before.filter(|(_, _, frame)| frame == came.input);
    let before = before.map(|&(call, number, _)| (call, number));
    let mut kinds = Vec::new();
    match (came.call, came.number) {
        ('K', 16) => {
            let (number, _) = unsealed_on_fresh(came.input);
            kinds.push(Kind::Unsealed(number));
            // Only the mark, the version and the address of a fresh image are not 0.
            if came.image[6..].iter().any(|&byte| byte != 0) {
                kinds.push(Kind::NotFresh);
            }
            if before == Some(('S', 0)) {
                kinds.push(Kind::AfterWritten);
            }
        }
        ('K', 0) => {
            let (_, reply) = unsealed_on_fresh(came.input);
            if reply != came.reply {
                kinds.push(Kind::Shown);
            }
            if before == Some(('S', 0)) {
                kinds.push(Kind::AfterUnsealed);
            }
        }
        ('S', 0) if before == Some(('K', 16)) => kinds.push(Kind::Written),
        ('S', 0) if before == Some(('K', 0)) => kinds.push(Kind::AfterSealed),
        _ => {}
    }
    if came.call == 'K' {
        kinds.push(Kind::Number(came.number));
    }
    kinds
}

impl Coverage {
    pub(super) fn count_switch(&mut self, came: &Came) {
        if !came.drawn || !matches!(came.call, 'S' | 'K') {
            return;
        }
        if let Some(command) = command_in(came.input) {
            for kind in kinds_of(came) {
                self.add(Thing::Switch(command, kind));
            }
        }
    }

    pub(super) fn print_switch(&self, out: &mut impl Write) -> io::Result<()> {
        writeln!(
            out,
            "\ndrawn calls that are sealed, by number and command; before and after is the same frame"
        )?;
        write!(out, "{:20}", "")?;
        for command in COMMANDS {
            write!(out, "{command:>7}")?;
        }
        writeln!(out, "{:>7}", "others")?;
        for (kind, name, commands) in ROWS {
            write!(out, "{name:20}")?;
            for command in COLUMNS {
                match commands.contains(&command) {
                    true => write!(out, "{:>7}", self.of(Thing::Switch(command, kind)))?,
                    false => write!(out, "{:>7}", "-")?,
                }
            }
            writeln!(out)?;
        }
        Ok(())
    }
}

/// All that must not stay at 0, with a name for each.
pub(super) fn wanted() -> Vec<(Thing, String)> {
    let mut wanted = Vec::new();
    for (kind, name, commands) in ROWS {
        for &command in commands {
            let of = match command {
                NO_COMMAND => "another command".to_string(),
                _ => format!("command {command}"),
            };
            let name = format!("sealed, drawn: {of}: {name}");
            wanted.push((Thing::Switch(command, kind), name));
        }
    }
    wanted
}
