//! What document 02, wish 8 wants reached, by fixed calls and by drawn ones
//! alike: moves done and refused in every way, and moves that a mover with
//! another rule would do otherwise.

mod wrong;

use std::io::{self, Write};

use super::checksum::body;
use super::{Came, Coverage, Thing};
use crate::items::{sum, Item, ITEMS, WORDS};
use crate::streams::WRITING;

/// Something for which a move is refused.
#[derive(Clone, Copy, Debug, PartialEq, Eq, PartialOrd, Ord)]
pub enum Fault {
    Source,
    Mark,
    Version,
    Address,
    Rows,
    Parts,
    Target,
}

#[derive(Clone, Copy, PartialEq, Eq, PartialOrd, Ord)]
pub enum Kind {
    /// Done over other bytes, and into a target that held just that.
    Over,
    Back,
    /// Done with a sum past 65,535 in an item.
    Past,
    /// Done with true words, not all of them 0, with a false one among true ones
    /// and with all of them false.
    True,
    False,
    AllFalse,
    /// Done right after a frame that wrote.
    AfterWrite,
    /// Refused for this alone, and for several such things.
    Alone(Fault),
    Several,
    /// Refused with a fault of the source and one of the target.
    Both,
    /// Refused for a source that is usable in the other version, with a target
    /// of the right length and with one for the other move.
    Other,
    OtherMove,
    /// A frame that was accepted right after a move up, and one that amended a
    /// word.
    Served,
    Amended,
    /// A frame refused right after a move down, since the image is served no more.
    NotServed,
    /// A move that a wrong mover, by its place in `wrong::all`, does otherwise.
    Wrong(usize),
}

/// A kind, its name, and the calls that must have it.
type Row = (Kind, &'static str, &'static [char]);

const EITHER: &[char] = &['U', 'D'];
const UP: &[char] = &['U'];
const DOWN: &[char] = &['D'];

const ROWS: [Row; 21] = [
    (Kind::Over, "done, over other bytes", EITHER),
    (Kind::Back, "done, there and back", EITHER),
    (Kind::Past, "done, a sum past 65,535", EITHER),
    (Kind::True, "done, true words", DOWN),
    (Kind::False, "done, some words false", DOWN),
    (Kind::AllFalse, "done, all words false", DOWN),
    (Kind::AfterWrite, "done, after a write", DOWN),
    (
        Kind::Alone(Fault::Source),
        "1, source's length alone",
        EITHER,
    ),
    (Kind::Alone(Fault::Mark), "1, mark alone", EITHER),
    (Kind::Alone(Fault::Version), "1, version alone", EITHER),
    (Kind::Alone(Fault::Address), "1, address alone", EITHER),
    (Kind::Alone(Fault::Rows), "1, a row count alone", EITHER),
    (Kind::Alone(Fault::Parts), "1, parts held alone", EITHER),
    (
        Kind::Alone(Fault::Target),
        "1, target's length alone",
        EITHER,
    ),
    (Kind::Several, "1, several faults", EITHER),
    (Kind::Both, "1, source and target", EITHER),
    (Kind::Other, "1, usable in the other version", EITHER),
    (Kind::OtherMove, "1, usable for the other move", EITHER),
    (Kind::Served, "accepted after a move up", &['S']),
    (Kind::Amended, "a word amended after it", &['S']),
    (Kind::NotServed, "refused 1 after a move down", &['S']),
];

/// The calls that are counted here.
const LETTERS: [char; 3] = ['U', 'D', 'S'];

/// A move as it came up.
struct Call<'a> {
    up: bool,
    number: u8,
    /// Both buffers before it, and then after it.
    source: &'a [u8],
    target: &'a [u8],
    source_after: &'a [u8],
    target_after: &'a [u8],
    faults: Vec<Fault>,
    /// What each item of the source adds up to, if the move was done.
    sums: Vec<u32>,
}

/// The version from which a move starts, and the lengths of both buffers.
fn from(up: bool) -> (u8, usize, usize) {
    match up {
        true => (1, 23_753, 23_817),
        false => (2, 23_817, 23_753),
    }
}

impl<'a> Call<'a> {
    fn new(came: &Came<'a>) -> Option<Self> {
        if !matches!(came.call, 'U' | 'D') {
            return None;
        }
        let (up, source, target) = (came.call == 'U', came.image_before, came.second_before);
        let (version, length, _) = from(up);
        let mut faults = faults_of(source, version, length);
        if target.len() != from(up).2 {
            faults.push(Fault::Target);
        }
        Some(Call {
            up,
            number: came.number,
            source,
            target,
            source_after: came.image,
            target_after: came.second,
            faults,
            sums: match came.number {
                0 => ITEMS.iter().map(|item| item_sum(source, item)).collect(),
                _ => Vec::new(),
            },
        })
    }

    fn sum(&self, item: &Item) -> u32 {
        self.sums[(item.word - WORDS.start) / 2]
    }

    /// Whether this is all that is wrong, if anything is.
    fn only(&self, fault: Fault) -> bool {
        self.faults.iter().all(|&each| each == fault)
    }

    /// Whether the source is usable in the other version.
    fn is_other(&self) -> bool {
        let (version, length, _) = from(!self.up);
        faults_of(self.source, version, length).is_empty()
    }

    /// Whether the other move would be done.
    fn is_for_other(&self) -> bool {
        self.is_other() && self.target.len() == from(!self.up).2
    }
}

/// What makes a source not usable. A place that it is too short for is not
/// counted against it once more.
pub(super) fn faults_of(source: &[u8], version: u8, length: usize) -> Vec<Fault> {
    let at = |place: usize| source.get(place).copied();
    let is = |place, byte| at(place).is_none_or(|found| found == byte);
    let mut faults = Vec::new();
    let mut judge = |right: bool, fault| {
        if !right {
            faults.push(fault);
        }
    };
    judge(source.len() == length, Fault::Source);
    judge(is(0, b'I') && is(1, b'Z') && is(2, b'K'), Fault::Mark);
    judge(is(3, 0) && is(4, version), Fault::Version);
    judge(at(5) != Some(0), Fault::Address);
    judge(row_counts(source).all(|count| count <= 21), Fault::Rows);
    judge(parts_held(source).all(|word| word <= 2047), Fault::Parts);
    faults
}

/// The row counts of the error tables, as far as the image goes.
fn row_counts(image: &[u8]) -> impl Iterator<Item = u8> + '_ {
    ITEMS[24..]
        .iter()
        .filter_map(|item| image.get(item.offset).copied())
}

/// The words of the parts held, as far as the image goes.
fn parts_held(image: &[u8]) -> impl Iterator<Item = u16> + '_ {
    let words = image.get(17..49).unwrap_or_default();
    words
        .chunks_exact(2)
        .map(|word| u16::from_be_bytes([word[0], word[1]]))
}

/// All the bytes of an item added up.
fn item_sum(image: &[u8], item: &Item) -> u32 {
    sum(&image[item.offset..item.offset + item.bytes])
}

fn kinds_of(call: &Call, came: &Came) -> Vec<Kind> {
    match call.number {
        0 => kinds_done(call, came),
        _ => kinds_refused(call),
    }
}

fn kinds_done(call: &Call, came: &Came) -> Vec<Kind> {
    let mut kinds = vec![match call.target == call.target_after {
        true => Kind::Back,
        false => Kind::Over,
    }];
    if ITEMS.iter().any(|item| call.sum(item) > 65_535) {
        kinds.push(Kind::Past);
    }
    if !call.up {
        let wrong = ITEMS.iter().filter(|item| item.is_false(call.source));
        match wrong.count() {
            0 if call.source[WORDS] != [0; 64] => kinds.push(Kind::True),
            0 => {}
            32 => kinds.push(Kind::AllFalse),
            _ => kinds.push(Kind::False),
        }
        if let Some(('S', 0, frame)) = came.before {
            if WRITING.contains(&body(frame)[1]) {
                kinds.push(Kind::AfterWrite);
            }
        }
    }
    kinds
}

fn kinds_refused(call: &Call) -> Vec<Kind> {
    let mut kinds = vec![match call.faults[..] {
        [fault] => Kind::Alone(fault),
        _ => Kind::Several,
    }];
    let of_target = call.faults.contains(&Fault::Target);
    if of_target && call.faults.len() > 1 {
        kinds.push(Kind::Both);
    }
    if call.is_other() && !of_target {
        kinds.push(Kind::Other);
    }
    if call.is_for_other() {
        kinds.push(Kind::OtherMove);
    }
    kinds
}

/// What is counted of a frame right after a move that was done.
fn kinds_behind(came: &Came) -> Vec<Kind> {
    let before = came.before.map(|(letter, number, _)| (*letter, *number));
    match (came.call, came.number, before) {
        ('S', 0, Some(('U', 0))) => match body(came.input)[1] {
            53 | 59 | 62 => vec![Kind::Served, Kind::Amended],
            _ => vec![Kind::Served],
        },
        ('S', 1, Some(('D', 0))) => vec![Kind::NotServed],
        _ => Vec::new(),
    }
}

/// The wrong movers that do this otherwise.
fn done_otherwise(call: &Call) -> Vec<Kind> {
    let movers = wrong::all().enumerate();
    let movers = movers.filter(|(_, (_, mover, _))| mover.differs(call));
    movers.map(|(place, _)| Kind::Wrong(place)).collect()
}

/// Rows of what is counted, those of wrong movers last.
fn rows() -> impl Iterator<Item = Row> {
    let wrong = wrong::all().enumerate();
    let wrong = wrong.map(|(place, &(name, _, letters))| (Kind::Wrong(place), name, letters));
    ROWS.into_iter().chain(wrong)
}

impl Coverage {
    pub(super) fn count_moves(&mut self, came: &Came) {
        let mut kinds = kinds_behind(came);
        if let Some(call) = Call::new(came) {
            kinds.extend(kinds_of(&call, came));
            kinds.extend(done_otherwise(&call));
        }
        for kind in kinds {
            self.add(Thing::Move(came.call, came.drawn, kind));
        }
    }

    pub(super) fn print_moves(&self, out: &mut impl Write) -> io::Result<()> {
        writeln!(
            out,
            "\nmoves by what they meet, and those that wrong movers would do otherwise"
        )?;
        write!(out, "{:36}", "")?;
        for whose in ["fixed", "drawn"] {
            for name in ["up", "down", "serve"] {
                write!(out, "{:>13}", format!("{name}, {whose}"))?;
            }
        }
        writeln!(out)?;
        for (kind, name, letters) in rows() {
            write!(out, "{name:36}")?;
            for drawn in [false, true] {
                for letter in LETTERS {
                    match letters.contains(&letter) {
                        true => {
                            let count = self.of(Thing::Move(letter, drawn, kind));
                            write!(out, "{count:>13}")?;
                        }
                        false => write!(out, "{:>13}", "-")?,
                    }
                }
            }
            writeln!(out)?;
        }
        Ok(())
    }
}

/// All that must not stay at 0, with a name for each.
pub(super) fn wanted() -> Vec<(Thing, String)> {
    let mut wanted = Vec::new();
    for (drawn, whose) in [(false, "fixed"), (true, "drawn")] {
        for (kind, name, letters) in rows() {
            for &letter in letters {
                let whose = format!("{}, {whose}", super::name_of(letter));
                wanted.push((Thing::Move(letter, drawn, kind), format!("{whose}: {name}")));
            }
        }
    }
    wanted
}

#[cfg(test)]
mod tests {
    use super::*;
    use crate::compare::probe_calls;
    use crate::probe_scripts;

    /// The rule stands here once more, for wrong ones to differ from it in one
    /// thing each. It must be the model's.
    #[test]
    fn right_mover_does_as_the_model() {
        let mut moves = 0;
        for number in 0..probe_scripts::purposeful() + 30 {
            let (name, script) = probe_scripts::script(8, number);
            if !name.starts_with("moves") && name != "calls by chance" {
                continue;
            }
            probe_calls(&script, true, |came| {
                if let Some(call) = Call::new(came) {
                    assert!(!wrong::RIGHT.differs(&call), "{}", came.line);
                    assert_eq!(call.faults.is_empty(), call.number == 0);
                    moves += 1;
                }
            });
        }
        assert!(moves > 500, "only {moves} moves");
    }
}
