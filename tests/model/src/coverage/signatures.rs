//! What document 02, wish 7 wants reached, by fixed calls and by drawn ones
//! alike: words that are amended, answered and left in every way, and calls
//! that a block with another rule for them would answer or leave otherwise.

use std::io;
use std::ops::Range;

use super::checksum::{body, bytes};
use super::{name_of, Came, Coverage, Thing};
use crate::items::{item, sum, Item, ITEMS, WORDS};
use crate::streams::{COMMANDS, FIELDS, READING, WRITING};

/// All the words, as they lie in the image.
pub type Words = [u8; 64];

#[derive(Clone, Copy, PartialEq, Eq, PartialOrd, Ord)]
pub enum Kind {
    /// A true word answered that is not 0, and a false one.
    True,
    False,
    /// A cell written for the first time, with other bytes than it had, and
    /// with those that it had.
    First,
    Over,
    Same,
    /// An error table written that has more rows than the one before, or fewer.
    Longer,
    Shorter,
    /// A word amended that goes below 0 or past 65,535 and stays there, or goes
    /// there if what left is taken off first, or what came added first.
    Below,
    Past,
    BelowBetween,
    PastBetween,
    /// A false word amended.
    Amiss,
    /// A call with this number that leaves words, not all of them 0.
    Left(u8),
    /// A fresh image laid out over words, not all of them 0.
    LaidOver,
    /// A call done on an image that has a false word.
    AmongFalse,
    /// A call that a wrong block, by its place in `WRONG`, answers or leaves
    /// otherwise. Of the desk's calls that is an answer alone.
    Wrong(usize),
}

/// The calls that must come up, by their letter and their commands.
type Calls = &'static [(char, &'static [u8])];

/// A kind, its name, and the calls that must have it.
type Row = (Kind, &'static str, Calls);

/// Stands for the calls that have no frame.
const NO_COMMAND: u8 = 0;
const NONE: &[u8] = &[NO_COMMAND];
const SIGN: &[u8] = &[55, 61, 64];
const AMEND: &[u8] = &[53, 59, 62];
const OTHER_WRITES: &[u8] = &[51, 76, 77];
const EITHER: Calls = &[('d', AMEND), ('S', AMEND)];
const EITHER_62: Calls = &[('d', &[62]), ('S', &[62])];
/// On a fresh image only a table can go past the ends.
const PAST_ENDS: Calls = &[('d', &[59]), ('S', AMEND)];

const ROWS: [Row; 19] = [
    (
        Kind::True,
        "answered true, not 0",
        &[('d', SIGN), ('S', SIGN), ('K', SIGN)],
    ),
    (Kind::False, "answered false", &[('S', SIGN), ('K', SIGN)]),
    (Kind::First, "written first", EITHER),
    (Kind::Over, "written over", EITHER),
    (Kind::Same, "written as it was", EITHER),
    (Kind::Longer, "more rows", EITHER_62),
    (Kind::Shorter, "fewer rows", EITHER_62),
    (Kind::Below, "below 0", PAST_ENDS),
    (Kind::Past, "past 65,535", PAST_ENDS),
    (Kind::BelowBetween, "below 0 in between", PAST_ENDS),
    (Kind::PastBetween, "past 65,535 in between", PAST_ENDS),
    (Kind::Amiss, "a false word amended", &[('S', AMEND)]),
    (
        Kind::Left(0),
        "words left",
        &[('d', OTHER_WRITES), ('S', OTHER_WRITES)],
    ),
    (Kind::Left(9), "words left, number 9", EITHER),
    (Kind::Left(10), "words left, number 10", EITHER),
    (
        Kind::Left(11),
        "words left, number 11",
        &[('d', &[53, 62]), ('S', &[53, 62]), ('F', NONE)],
    ),
    (Kind::Left(16), "words left, number 16", &[('K', &WRITING)]),
    (Kind::LaidOver, "over words not 0", &[('F', NONE)]),
    (
        Kind::AmongFalse,
        "with a false word",
        &[('S', &COMMANDS), ('K', &READING), ('H', NONE)],
    ),
];

/// A call as far as it has to do with words.
struct Call<'a> {
    letter: char,
    number: u8,
    command: u8,
    data: Vec<u8>,
    /// The image before it and after it.
    before: &'a [u8],
    after: &'a [u8],
    /// What it answered, if it asked a signature.
    answer: Option<u16>,
}

impl<'a> Call<'a> {
    /// Nothing if the image may not be usable or the command may not be served.
    fn new(came: &Came<'a>) -> Option<Self> {
        let (command, data) = match (came.call, came.number) {
            ('F', 0 | 11) | ('H', 0) => (NO_COMMAND, Vec::new()),
            ('d' | 'S' | 'K', 0 | 9 | 10 | 11 | 16) => {
                let body = body(came.input);
                (body[1], body[2..body.len() - 1].to_vec())
            }
            _ => return None,
        };
        let answered = came.number == 0 && SIGN.contains(&command);
        let answer = answered.then(|| {
            // Address, command and item stand before it.
            let reply = bytes(&came.reply[1..]);
            u16::from_be_bytes([reply[3], reply[4]])
        });
        Some(Call {
            letter: came.call,
            number: came.number,
            command,
            data,
            before: came.image_before,
            after: came.image,
            answer,
        })
    }

    /// The item that it names, if there is such.
    fn item(&self) -> Option<&'static Item> {
        item(self.command, *self.data.first()?)
    }
}

/// A write whose length and item are right, be it accepted or not.
struct Write<'a> {
    item: &'static Item,
    command: u8,
    data: &'a [u8],
    image: &'a [u8],
    cell: Range<usize>,
    /// What the cell then holds, padding included.
    came: Vec<u8>,
}

impl<'a> Write<'a> {
    fn new(call: &'a Call) -> Option<Self> {
        let data = &call.data[..];
        let (item, offset, came) = match (call.command, data.len()) {
            // These have no signature. A wrong block counts them with table 1.
            (51, 1) => (&ITEMS[0], 6, data.to_vec()),
            (76, 1) => (&ITEMS[0], 7, data.to_vec()),
            (77, 9) => (&ITEMS[0], 8, data.to_vec()),
            (53, 84) => (call.item()?, call.item()?.offset, data[1..].to_vec()),
            (59, 130) if (1..=11).contains(&data[1]) => {
                let offset = call.item()?.offset + 128 * usize::from(data[1] - 1);
                (call.item()?, offset, data[2..].to_vec())
            }
            (62, 5..=65) if data.len() % 3 == 2 => {
                let mut came = data[1..].to_vec();
                came.resize(64, 0);
                (call.item()?, call.item()?.offset, came)
            }
            _ => return None,
        };
        Some(Write {
            item,
            command: call.command,
            data,
            image: call.before,
            cell: offset..offset + came.len(),
            came,
        })
    }

    fn left(&self) -> &[u8] {
        &self.image[self.cell.clone()]
    }

    /// Whether the cell has been written before, on an image that was fresh.
    fn again(&self) -> bool {
        match self.command {
            59 => held(self.item, self.image) >> (self.data[1] - 1) & 1 == 1,
            _ => sum(self.left()) > 0,
        }
    }

    /// The full sum of the item once it is written.
    fn full_sum(&self) -> i32 {
        let before = i32::from(self.item.full_sum(self.image));
        before - total(self.left()) + total(&self.came)
    }
}

fn total(bytes: &[u8]) -> i32 {
    sum(bytes) as i32
}

/// The word of the parts held of a table. Those of the sixteen stand in a row
/// as the signatures do.
fn held(table: &Item, image: &[u8]) -> u16 {
    let place = 17 + table.word - WORDS.start;
    u16::from_be_bytes([image[place], image[place + 1]])
}

/// A block's way with words; whatever else it does is right.
struct Block {
    /// Whether a call amends a word.
    amends: fn(&Call) -> bool,
    /// The sums of what left and of what came.
    left: fn(&Write) -> i32,
    came: fn(&Write) -> i32,
    /// The word that is left, from the old one and both sums; it is kept to 16
    /// bits.
    amended: fn(&Write, i32, i32, i32) -> i32,
    /// Where the word of an item lies among all the words.
    place: fn(&Item) -> usize,
    /// The bytes of a word in the order in which they lie.
    order: fn([u8; 2]) -> [u8; 2],
    /// What is answered of an item of the image when this is its word.
    answered: fn(&Item, &[u8], u16) -> u16,
}

const RIGHT: Block = Block {
    amends: |call| call.number == 0 && AMEND.contains(&call.command),
    left: |write| total(write.left()),
    came: |write| total(&write.came),
    amended: |_, word, left, came| word - left + came,
    place: right_place,
    order: |bytes| bytes,
    answered: |_, _, word| word,
};

impl Block {
    /// Does to its words what the call makes it do, and gives its answer.
    fn serve(&self, words: &mut Words, call: &Call) -> Option<u16> {
        if call.answer.is_some() {
            let item = call.item()?;
            return Some((self.answered)(item, call.before, self.word(words, item)));
        }
        if (self.amends)(call) {
            let write = Write::new(call)?;
            let word = i32::from(self.word(words, write.item));
            let (left, came) = ((self.left)(&write), (self.came)(&write));
            // Remainder by 65,536, of what is below 0 as well.
            let amended = (self.amended)(&write, word, left, came) as u16;
            let place = (self.place)(write.item);
            let bytes = (self.order)(amended.to_be_bytes());
            words[place..place + 2].copy_from_slice(&bytes);
        }
        None
    }

    fn word(&self, words: &Words, item: &Item) -> u16 {
        let place = (self.place)(item);
        u16::from_be_bytes((self.order)([words[place], words[place + 1]]))
    }
}

fn right_place(item: &Item) -> usize {
    item.word - WORDS.start
}

// Blocks that are wrong in one thing.

const fn amends(amends: fn(&Call) -> bool) -> Block {
    Block { amends, ..RIGHT }
}

const fn left(left: fn(&Write) -> i32) -> Block {
    Block { left, ..RIGHT }
}

const fn came(came: fn(&Write) -> i32) -> Block {
    Block { came, ..RIGHT }
}

const fn amended(amended: fn(&Write, i32, i32, i32) -> i32) -> Block {
    Block { amended, ..RIGHT }
}

/// The places of the words, by the command that writes the item.
const fn place(place: fn(&Item) -> usize) -> Block {
    Block { place, ..RIGHT }
}

const fn order(order: fn([u8; 2]) -> [u8; 2]) -> Block {
    Block { order, ..RIGHT }
}

const fn answered(answered: fn(&Item, &[u8], u16) -> u16) -> Block {
    Block { answered, ..RIGHT }
}

/// What is wrong with a block, the block, and the calls that must show it.
type Wrong = (&'static str, Block, Calls);

/// A wrong sum shows in what is left at once, and at the desk when it is asked.
const SUMS: Calls = &[('d', SIGN), ('S', AMEND)];
/// On a fresh image a wrong remainder shows in tables alone.
const REMAINDERS: Calls = &[('d', &[61]), ('S', AMEND)];
const OF_ROWS: Calls = &[('d', &[64]), ('S', &[62])];

const WRONG: [Wrong; 27] = [
    ("what left not taken off", left(|_| 0), SUMS),
    ("what came not added", came(|_| 0), SUMS),
    (
        "item's number added",
        came(|write| total(&write.came) + i32::from(write.data[0])),
        SUMS,
    ),
    (
        "no carry to the high byte",
        amended(|_, word, left, came| {
            let (high, low) = ((came - left) & 0xFF00, (word + came - left) & 0xFF);
            (word & 0xFF00) + high + low
        }),
        SUMS,
    ),
    (
        "summed anew when written",
        amended(|write, _, _, _| write.full_sum()),
        &[('S', AMEND)],
    ),
    (
        "summed anew when asked",
        answered(|item, image, _| item.full_sum(image)),
        &[('S', SIGN), ('K', SIGN)],
    ),
    (
        "0 summed anew when asked",
        answered(|item, image, word| match word {
            0 => item.full_sum(image),
            _ => word,
        }),
        &[('S', SIGN), ('K', SIGN)],
    ),
    (
        "full table summed anew when asked",
        answered(|item, image, word| match item.commands[0] {
            59 if held(item, image) == 0x7FF => item.full_sum(image),
            _ => word,
        }),
        &[('S', &[61]), ('K', &[61])],
    ),
    (
        "remainder by 65,535",
        amended(|_, word, left, came| (word - left + came).rem_euclid(65_535)),
        REMAINDERS,
    ),
    (
        "held at 0 and 65,535",
        amended(|_, word, left, came| (word - left + came).clamp(0, 65_535)),
        REMAINDERS,
    ),
    (
        "held at 0, then added",
        amended(|_, word, left, came| (word - left).max(0) + came),
        REMAINDERS,
    ),
    (
        "held at 65,535, then taken off",
        amended(|_, word, left, came| (word + came).min(65_535) - left),
        REMAINDERS,
    ),
    (
        "padding not counted",
        left(|write| match write.command {
            62 => total(&write.left()[..write.data.len() - 1]),
            _ => total(write.left()),
        }),
        OF_ROWS,
    ),
    (
        "row count not counted",
        Block {
            left: |write| total(without_count(write, write.left())),
            came: |write| total(without_count(write, &write.came)),
            ..RIGHT
        },
        OF_ROWS,
    ),
    (
        "old rows behind the count kept",
        left(|write| match (write.command, write.left()) {
            (62, table) => total(&table[..=3 * usize::from(table[0])]),
            (_, left) => total(left),
        }),
        &[('S', &[62])],
    ),
    (
        "old reserve kept",
        left(|write| match write.command {
            53 => fields(write.left()),
            _ => total(write.left()),
        }),
        &[('S', &[53])],
    ),
    (
        "part not held taken as empty",
        left(|write| match (write.command, write.again()) {
            (59, false) => 0,
            _ => total(write.left()),
        }),
        &[('S', &[59])],
    ),
    (
        "part's bit counted",
        came(|write| match (write.command, write.again()) {
            (59, false) => total(&write.came) + (1 << ((write.data[1] - 1) % 8)),
            _ => total(&write.came),
        }),
        &[('d', &[61]), ('S', &[59])],
    ),
    (
        "51, 76 and 77 counted",
        amends(|call| call.number == 0 && WRITING.contains(&call.command)),
        &[('d', &[61]), ('S', OTHER_WRITES)],
    ),
    (
        "refused 11 and counted",
        amends(|call| matches!(call.number, 0 | 11) && AMEND.contains(&call.command)),
        &[('d', &[55, 64]), ('S', &[53, 62])],
    ),
    (
        "refused 16 and counted",
        amends(|call| matches!(call.number, 0 | 16) && AMEND.contains(&call.command)),
        &[('K', AMEND)],
    ),
    (
        "table by its number by 10",
        place(|item| match item.commands[0] {
            59 => 2 * usize::from(item.number % 10 - 1),
            _ => right_place(item),
        }),
        &[('d', &[61]), ('S', &[59, 61]), ('K', &[61])],
    ),
    (
        "additional tables first",
        place(|item| match item.commands[0] {
            59 => (right_place(item) + 16) % 32,
            _ => right_place(item),
        }),
        &[('S', &[59, 61]), ('K', &[61])],
    ),
    (
        "constants before tables",
        place(|item| match item.commands[0] {
            53 => right_place(item) - 32,
            59 => right_place(item) + 16,
            _ => right_place(item),
        }),
        &[('S', &[53, 55, 59, 61]), ('K', &[55, 61])],
    ),
    (
        "error tables before constants",
        place(|item| match item.commands[0] {
            53 => right_place(item) + 16,
            62 => right_place(item) - 16,
            _ => right_place(item),
        }),
        &[('S', &[53, 55, 62, 64]), ('K', &[55, 64])],
    ),
    (
        "error tables from 0",
        place(|item| match item.commands[0] {
            62 => 48 + 2 * usize::from(item.number % 8),
            _ => right_place(item),
        }),
        &[('S', &[62, 64]), ('K', &[64])],
    ),
    (
        "low byte first",
        order(|[high, low]| [low, high]),
        &[('S', &[53, 55, 59, 61, 62, 64]), ('K', SIGN)],
    ),
];

/// The bytes of a cell, of an error table without the first.
fn without_count<'a>(write: &Write, bytes: &'a [u8]) -> &'a [u8] {
    match write.command {
        62 => &bytes[1..],
        _ => bytes,
    }
}

/// The sum of constants without their reserve. Body byte 4 is their first.
fn fields(constants: &[u8]) -> i32 {
    FIELDS
        .iter()
        .map(|&(first, last)| total(&constants[first - 4..=last - 4]))
        .sum()
}

fn words_of(image: &[u8]) -> Words {
    image[WORDS].try_into().expect("an image of full length")
}

fn any_false(image: &[u8]) -> bool {
    ITEMS.iter().any(|item| item.is_false(image))
}

fn kinds_of(call: &Call) -> Vec<Kind> {
    let mut kinds = Vec::new();
    let not_0 = words_of(call.before) != [0; 64];
    if let (Some(word), Some(item)) = (call.answer, call.item()) {
        match item.is_false(call.before) {
            true => kinds.push(Kind::False),
            false if word > 0 => kinds.push(Kind::True),
            false => {}
        }
    }
    if (RIGHT.amends)(call) {
        kinds.extend(Write::new(call).iter().flat_map(kinds_of_write));
    } else if not_0 && (WRITING.contains(&call.command) || call.number > 0) {
        kinds.push(Kind::Left(call.number));
    }
    if not_0 && call.letter == 'F' && call.number == 0 {
        kinds.push(Kind::LaidOver);
    }
    // The words of the desk are never false.
    if call.letter != 'd' && call.number == 0 && any_false(call.before) {
        kinds.push(Kind::AmongFalse);
    }
    kinds
}

fn kinds_of_write(write: &Write) -> Vec<Kind> {
    let mut kinds = Vec::new();
    kinds.push(match write.again() {
        false => Kind::First,
        true if write.left() == write.came => Kind::Same,
        true => Kind::Over,
    });
    if write.command == 62 && write.again() && write.came[0] != write.left()[0] {
        kinds.push(match write.came[0] > write.left()[0] {
            true => Kind::Longer,
            false => Kind::Shorter,
        });
    }
    if write.item.is_false(write.image) {
        kinds.push(Kind::Amiss);
    }
    let word = i32::from(write.item.stored(write.image));
    let (left, came) = (total(write.left()), total(&write.came));
    match word - left + came {
        ..0 => kinds.push(Kind::Below),
        65_536.. => kinds.push(Kind::Past),
        _ if word < left => kinds.push(Kind::BelowBetween),
        _ if word + came > 65_535 => kinds.push(Kind::PastBetween),
        _ => {}
    }
    kinds
}

/// Rows of what is counted, those of wrong blocks last.
fn rows() -> impl Iterator<Item = Row> {
    let wrong = WRONG.into_iter().enumerate();
    let wrong = wrong.map(|(place, (name, _, calls))| (Kind::Wrong(place), name, calls));
    ROWS.into_iter().chain(wrong)
}

impl Coverage {
    pub(super) fn count_signatures(&mut self, came: &Came) {
        if came.call == 'd' && came.before.is_none() {
            self.desk_words = vec![[0; 64]; WRONG.len()];
        }
        let Some(call) = Call::new(came) else {
            return;
        };
        let mut kinds = kinds_of(&call);
        kinds.extend(match call.letter {
            'd' => answered_otherwise(&mut self.desk_words, &call),
            'S' | 'K' => done_otherwise(&call),
            _ => Vec::new(),
        });
        for kind in kinds {
            self.add(Thing::Signature(
                call.letter,
                came.drawn,
                call.command,
                kind,
            ));
        }
    }

    pub(super) fn print_signatures(&self, out: &mut impl io::Write) -> io::Result<()> {
        for (drawn, whose) in [(false, "fixed"), (true, "drawn")] {
            writeln!(
                out,
                "\n{whose} calls by what they do to the words, and those that wrong blocks would answer or leave otherwise"
            )?;
            write!(out, "{:42}", "")?;
            for command in COMMANDS {
                write!(out, "{command:>6}")?;
            }
            writeln!(out, "{:>6}", "none")?;
            for (kind, name, calls) in rows() {
                for &(letter, commands) in calls {
                    write!(out, "{:42}", format!("{}: {name}", name_of(letter)))?;
                    for command in COMMANDS.into_iter().chain([NO_COMMAND]) {
                        let thing = Thing::Signature(letter, drawn, command, kind);
                        match commands.contains(&command) {
                            true => write!(out, "{:>6}", self.of(thing))?,
                            false => write!(out, "{:>6}", "-")?,
                        }
                    }
                    writeln!(out)?;
                }
            }
        }
        Ok(())
    }
}

/// The wrong blocks that give another answer at the desk, each with the words
/// that it has come to by itself.
fn answered_otherwise(words: &mut [Words], call: &Call) -> Vec<Kind> {
    let mut kinds = Vec::new();
    for (place, ((_, block, _), words)) in WRONG.iter().zip(words).enumerate() {
        if block.serve(words, call) != call.answer {
            kinds.push(Kind::Wrong(place));
        }
    }
    kinds
}

/// The wrong blocks that from the same words give another answer or leave
/// other words.
fn done_otherwise(call: &Call) -> Vec<Kind> {
    let mut kinds = Vec::new();
    for (place, (_, block, _)) in WRONG.iter().enumerate() {
        let mut words = words_of(call.before);
        let answer = block.serve(&mut words, call);
        if answer != call.answer || words != words_of(call.after) {
            kinds.push(Kind::Wrong(place));
        }
    }
    kinds
}

/// All that must not stay at 0, with a name for each.
pub(super) fn wanted() -> Vec<(Thing, String)> {
    let mut wanted = Vec::new();
    for (drawn, whose) in [(false, "fixed"), (true, "drawn")] {
        for (kind, name, calls) in rows() {
            for &(letter, commands) in calls {
                for &command in commands {
                    let thing = Thing::Signature(letter, drawn, command, kind);
                    let of = match command {
                        NO_COMMAND => String::new(),
                        _ => format!("command {command}: "),
                    };
                    let whose = format!("{}, {whose}", name_of(letter));
                    wanted.push((thing, format!("{whose}: {of}{name}")));
                }
            }
        }
    }
    wanted
}

#[cfg(test)]
mod tests {
    use super::*;
    use crate::compare::{desk_calls, probe_calls};
    use crate::{desk_streams, probe_scripts};

    /// The rule stands here once more, for wrong ones to differ from it in one
    /// thing each. It must be the model's.
    #[test]
    fn right_block_does_as_the_model() {
        for number in 0..probe_scripts::purposeful() + 100 {
            let (_, script) = probe_scripts::script(8, number);
            probe_calls(&script, true, |came| {
                let call = Call::new(came).filter(|call| call.letter != 'F');
                if let Some(call) = call {
                    let mut words = words_of(call.before);
                    assert_eq!(RIGHT.serve(&mut words, &call), call.answer);
                    assert_eq!(words, words_of(call.after));
                }
            });
        }
        for number in 0..desk_streams::purposeful() + 20 {
            let (_, stream) = desk_streams::stream(8, number);
            let mut words = [0; 64];
            desk_calls(&stream, true, |came| {
                if let Some(call) = Call::new(came) {
                    assert_eq!(RIGHT.serve(&mut words, &call), call.answer);
                }
            });
        }
    }
}
