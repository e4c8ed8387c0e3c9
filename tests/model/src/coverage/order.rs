//! What document 02, wish 14 wants reached, by fixed calls and by drawn ones
//! alike: lists that are served in two orders, with repeats and refused frames
//! of every kind, and lists that a block with another way with repeats would
//! serve otherwise. Every other list that comes up is held to its last writes,
//! too.

mod kinds;
mod wrong;

use std::io::{self, Write};

use self::kinds::kinds_of;
use super::{name_of, Came, Coverage, Thing};
use crate::order::lists::{List, Lists, Pair};
use crate::streams::{COMMANDS, READING, WRITING};

#[derive(Clone, Copy, PartialEq, Eq, PartialOrd, Ord)]
pub enum Kind {
    /// A cell that is written again, by the command.
    Repeated(u8),
    /// Written again with the bytes that it had, with others, a third time, and
    /// with the first bytes behind others.
    Same,
    Other,
    Thrice,
    Back,
    /// An error table written again with fewer rows, and with more.
    Shorter,
    Longer,
    /// A cell written again in an item whose word is false, by the command.
    Amiss(u8),
    /// A frame of this command between two writes of what it reads.
    Between(u8),
    /// A refused frame that names a cell behind the last write of it, before the
    /// first one, and on the other side of one in the other order.
    RefusedLast,
    RefusedFirst,
    RefusedMoved,
    /// Equal frames with the same reply, and with other replies.
    Equal,
    EqualOtherwise,
    /// Two accepted frames the other way round, of these two parts of one table,
    /// and two reads of one cell.
    Turned,
    TurnedParts,
    TurnedReads,
    /// Two frames that clash and are nearer or farther in the other order: two
    /// writes, a write before a read, and a read before a write.
    KeptWrites,
    KeptRead,
    KeptWrite,
    /// A list of three frames or more of which no two clash, and such a list
    /// backwards.
    NoClash,
    Backwards,
    /// Sealed, two frames the other way round that would clash unsealed, and a
    /// cell for which two writes are sent.
    WouldClash,
    SentTwice,
    /// A cell that is not written, not 0, and read.
    Old,
    /// An output longer than 269 bytes, and a frame with outputs of two lengths.
    Room,
    OtherRoom,
    /// A write, and a frame of this command that clashes with it, the other way
    /// round: something came out otherwise.
    NotKept(u8),
    /// A list that a wrong block, by its place in `wrong::all`, serves
    /// otherwise.
    Wrong(usize),
}

/// A kind, its name, and the calls that must have it.
type Row = (Kind, String, &'static [char]);

const ANY: &[char] = &['d', 'S', 'K'];
const EITHER: &[char] = &['d', 'S'];
const SERVE: &[char] = &['S'];
const SEALED: &[char] = &['K'];
const PROBE: &[char] = &['S', 'K'];

const ROWS: [(Kind, &str, &[char]); 24] = [
    (Kind::Same, "the same bytes again", EITHER),
    (Kind::Other, "other bytes", EITHER),
    (Kind::Thrice, "a third time", EITHER),
    (Kind::Back, "the first bytes behind others", EITHER),
    (Kind::Shorter, "fewer rows", EITHER),
    (Kind::Longer, "more rows", EITHER),
    (Kind::RefusedLast, "refused behind the last write", EITHER),
    (Kind::RefusedFirst, "refused before the first write", EITHER),
    (Kind::RefusedMoved, "refused and moved past a write", EITHER),
    (Kind::Equal, "equal frames, the same reply", ANY),
    (Kind::EqualOtherwise, "equal frames, other replies", EITHER),
    (Kind::Turned, "two that do not clash turned", ANY),
    (Kind::TurnedParts, "two parts of a table turned", EITHER),
    (Kind::TurnedReads, "two reads of a cell turned", ANY),
    (Kind::KeptWrites, "two writes kept", EITHER),
    (Kind::KeptRead, "a read kept behind a write", EITHER),
    (Kind::KeptWrite, "a write kept behind a read", EITHER),
    (Kind::NoClash, "no clash", ANY),
    (Kind::Backwards, "no clash, backwards", ANY),
    (Kind::WouldClash, "turned, would clash unsealed", SEALED),
    (Kind::SentTwice, "sealed, a write sent twice", SEALED),
    (Kind::Old, "an old value read", PROBE),
    (Kind::Room, "a longer output", PROBE),
    (Kind::OtherRoom, "outputs of two lengths", PROBE),
];

/// A kind for each of some commands, what its name has behind the command, and
/// the calls that must have it.
type OfCommands = (fn(u8) -> Kind, &'static [u8], &'static str, &'static [char]);

const OF_COMMANDS: [OfCommands; 4] = [
    (Kind::Repeated, &WRITING, "repeated", EITHER),
    (Kind::Amiss, &[53, 59, 62], "repeated, a false word", SERVE),
    (Kind::Between, &READING, "between two writes", EITHER),
    (Kind::NotKept, &COMMANDS, "and a write not kept", SERVE),
];

/// All rows, those of wrong blocks last.
fn rows() -> Vec<Row> {
    let mut rows: Vec<Row> = Vec::new();
    for (kind, name, letters) in ROWS {
        rows.push((kind, name.to_string(), letters));
    }
    for (kind, commands, name, letters) in OF_COMMANDS {
        let row = |&command| (kind(command), format!("{command} {name}"), letters);
        rows.extend(commands.iter().map(row));
    }
    for (place, &(name, _, letters)) in wrong::all().enumerate() {
        rows.push((Kind::Wrong(place), name.to_string(), letters));
    }
    rows
}

/// Lists as a run brings them up, and how they ended.
#[derive(Default)]
pub struct Tally {
    lists: Lists,
    /// The last list of the desk and that of the probe.
    last: [Option<List>; 2],
    /// How many there were, and how many of them ended with the last write of
    /// each cell.
    ended: usize,
    ended_as_written: usize,
    /// How many were in another order that keeps what clashes, and how many of
    /// these gave each frame the same and ended the same.
    reordered: usize,
    alike: usize,
}

impl Coverage {
    pub(super) fn count_order(&mut self, came: &Came) {
        if let Some(list) = self.order.lists.take(came) {
            self.count_list(list);
        }
    }

    /// Counts the list that is still open when the run is over.
    pub fn close(&mut self) {
        if let Some(list) = self.order.lists.end() {
            self.count_list(list);
        }
    }

    fn count_list(&mut self, list: List) {
        self.order.ended += 1;
        self.order.ended_as_written += usize::from(list.ends_as_written());
        let whose = usize::from(list.letter != 'd');
        let last = self.order.last[whose].take();
        let pair = last.as_ref().and_then(|last| Pair::new(last, &list));
        if let Some(pair) = pair {
            if pair.kept {
                self.order.reordered += 1;
                self.order.alike += usize::from(pair.is_alike());
            }
            for kind in kinds_of(&pair) {
                self.add(Thing::Order(list.letter, list.drawn, kind));
            }
        }
        self.order.last[whose] = Some(list);
    }

    /// What came out otherwise than wish 14 has it.
    pub(super) fn missing_of_order(&self) -> Vec<String> {
        let tally = &self.order;
        let mut missing = Vec::new();
        if tally.ended_as_written < tally.ended {
            missing.push("a list that ends with the last write of each cell".to_string());
        }
        if tally.alike < tally.reordered {
            missing.push("the same outcome in an order that keeps what clashes".to_string());
        }
        missing
    }

    pub(super) fn print_order(&self, out: &mut impl Write) -> io::Result<()> {
        writeln!(
            out,
            "\nlists served in two orders by what is in them, and those that wrong blocks would serve otherwise"
        )?;
        write!(out, "{:36}", "")?;
        for whose in ["fixed", "drawn"] {
            for &letter in ANY {
                write!(out, "{:>15}", format!("{}, {whose}", name_of(letter)))?;
            }
        }
        writeln!(out)?;
        for (kind, name, letters) in rows() {
            write!(out, "{name:36}")?;
            for drawn in [false, true] {
                for letter in ANY {
                    let count = self.of(Thing::Order(*letter, drawn, kind));
                    match letters.contains(letter) {
                        true => write!(out, "{count:>15}")?,
                        false => write!(out, "{:>15}", "-")?,
                    }
                }
            }
            writeln!(out)?;
        }
        let tally = &self.order;
        writeln!(
            out,
            "\nlists that ended with the last write of each cell: {} of {}\n\
             lists in another order that came out alike: {} of {}",
            tally.ended_as_written, tally.ended, tally.alike, tally.reordered
        )
    }
}

/// All that must not stay at 0, with a name for each.
pub(super) fn wanted() -> Vec<(Thing, String)> {
    let mut wanted = Vec::new();
    for (drawn, whose) in [(false, "fixed"), (true, "drawn")] {
        for (kind, name, letters) in rows() {
            for &letter in letters {
                let whose = format!("{}, {whose}", name_of(letter));
                let name = format!("{whose}: list: {name}");
                wanted.push((Thing::Order(letter, drawn, kind), name));
            }
        }
    }
    wanted
}
