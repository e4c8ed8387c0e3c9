//! Frames that are served off a line, by command: those that are accepted, those
//! that are refused, and writes that leave another image.

use std::io::{self, Write};

use crate::block;
use crate::coverage::{Came, Coverage, Thing};
use crate::streams::{COMMANDS, WRITING};

#[derive(Clone, Copy, Debug, PartialEq, Eq, PartialOrd, Ord)]
pub enum Served {
    Accepted,
    Refused,
    Stored,
}

const ROWS: [(Served, &str, &[u8]); 3] = [
    (Served::Accepted, "accepted", &COMMANDS),
    (Served::Refused, "refused", &COMMANDS),
    (Served::Stored, "image changed", &WRITING),
];

impl Coverage {
    /// The command counts if the frame itself is good.
    pub(super) fn count_served(&mut self, came: &Came) {
        let mut contents = [0; 132];
        if block::take_apart(came.input, &mut contents).is_err() {
            return;
        }
        let served = match came.number {
            0 => Served::Accepted,
            _ => Served::Refused,
        };
        self.add(Thing::OffLine(contents[1], served));
        if came.image != came.image_before {
            self.add(Thing::OffLine(contents[1], Served::Stored));
        }
    }

    pub(super) fn print_served(&self, out: &mut impl Write) -> io::Result<()> {
        writeln!(out, "\nframes served off the line by command")?;
        write!(out, "{:16}", "")?;
        for command in COMMANDS {
            write!(out, "{command:>7}")?;
        }
        writeln!(out)?;
        for (served, name, commands) in ROWS {
            write!(out, "{name:16}")?;
            for command in COMMANDS {
                match commands.contains(&command) {
                    true => write!(out, "{:>7}", self.of(Thing::OffLine(command, served)))?,
                    false => write!(out, "{:>7}", "-")?,
                }
            }
            writeln!(out)?;
        }
        Ok(())
    }
}

/// All that must not stay at 0, with a name for each.
pub fn wanted() -> Vec<(Thing, String)> {
    let mut wanted = Vec::new();
    for (served, name, commands) in ROWS {
        for &command in commands {
            let name = format!("off the line: command {command} {name}");
            wanted.push((Thing::OffLine(command, served), name));
        }
    }
    wanted
}
