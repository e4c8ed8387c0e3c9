//! Counts of what the differential test reached, and what it must reach.

mod checksum;
mod listener;
mod moves;
mod order;
pub mod panel;
mod quantity;
mod sealed;
mod signatures;
mod table_file;
mod temperatures;

use std::collections::BTreeMap;
use std::io::{self, Write};

use self::checksum::{CARRIES_KEPT, KINDS, WRONG};
use crate::probe::Probe;
use crate::streams::{BESIDE_DIGITS, COMMANDS};
use crate::{block, fixed};

/// A call's letter, its name, and the numbers that must come up.
type Call = (char, &'static str, &'static [u8]);

/// The calls that are given a frame. Their numbers must come up for frames
/// with a small letter as well.
const OF_FRAMES: [Call; 4] = [
    ('d', "desk", &[0, 3, 4, 5, 6, 7, 8, 9, 10, 11]),
    ('S', "serve", &[0, 1, 2, 3, 4, 5, 6, 7, 8, 9, 10, 11]),
    ('K', "sealed", &[0, 1, 2, 3, 4, 5, 6, 7, 8, 9, 10, 16]),
    ('T', "take apart", &[0, 2, 3, 4, 5, 6]),
];

const OTHERS: [Call; 8] = [
    ('B', "build", &[0, 2, 3]),
    ('F', "fresh", &[0, 1, 11]),
    ('H', "held parts", &[0, 1, 10]),
    ('A', "quantity", &[0, 1, 10, 12, 13, 14]),
    ('C', "table file", &[0, 17, 18, 19, 20]),
    ('U', "move up", &[0, 1]),
    ('D', "move down", &[0, 1]),
    ('g', "off the line", &[0, 1, 2, 3, 4, 5, 6, 7, 8, 9, 10, 11]),
];

/// The numbers that can come up; the one between belongs to a wish to come.
const NUMBERS: [u8; 20] = [
    0, 1, 2, 3, 4, 5, 6, 7, 8, 9, 10, 11, 12, 13, 14, 16, 17, 18, 19, 20,
];

/// The frames served unsealed that are counted by command: by call, and
/// whether a letter of theirs is small.
const SERVED: [(char, bool, &str); 4] = [
    ('d', false, "desk, none small"),
    ('S', false, "serve, none small"),
    ('d', true, "desk, a small one"),
    ('S', true, "serve, a small one"),
];

/// A call as it came up in a run.
pub struct Came<'a> {
    /// Its letter; d, with which no record begins, for a piece given to the desk
    /// program, and g, likewise, for a frame that is served off a line.
    pub call: char,
    /// Whether it is from a stream or script of the seed and no fixed call.
    pub drawn: bool,
    pub input: &'a [u8],
    pub number: u8,
    /// The model's line for it; of a line given to the listener all of them.
    pub line: &'a str,
    /// If it served a frame, the reply without its last two bytes.
    pub reply: &'a [u8],
    /// The image before it.
    pub image_before: &'a [u8],
    /// The image after it.
    pub image: &'a [u8],
    /// If it moved an image, the second buffer before it and after it.
    pub second_before: &'a [u8],
    pub second: &'a [u8],
    /// How long the output is.
    pub room: usize,
    /// The call before it in its stream or script.
    pub before: Option<&'a Before>,
    /// If it gave a line to the listener, the probe before that.
    pub listening: Option<&'a Probe>,
}

/// A call's letter, its number and what it was given.
pub type Before = (char, u8, Vec<u8>);

/// Something that is counted; the first value is the call's letter, of
/// `Switch` the command. What is counted of lines has no letter.
#[derive(Clone, Copy, PartialEq, Eq, PartialOrd, Ord)]
enum Thing {
    /// The number that a call gave.
    Number(char, u8),
    /// The number that a call gave for a frame with a small letter.
    SmallLetter(char, u8),
    /// Whether the frame had a small letter, its command, and whether that
    /// was accepted.
    Command(char, bool, u8, bool),
    /// An accepted frame with both cases in one byte.
    BothCases(char),
    /// A frame refused 5 for this character alone.
    NoDigit(char, u8),
    /// A frame that comes to the checksum's test, by its place in `KINDS`.
    Sum(char, usize),
    /// A frame that a wrong test would judge otherwise, by that test's place
    /// in `WRONG`, and whether it is a right frame.
    Misjudged(char, usize, bool),
    /// A table of temperatures, by whether the call was drawn and by its kind's
    /// place in `temperatures::KINDS`.
    Table(char, bool, usize),
    /// A table that a wrong rule would judge otherwise, by whether the call was
    /// drawn, by that rule's place in `temperatures::WRONG`, and by whether the
    /// table was accepted.
    Misread(char, bool, usize, bool),
    /// What is counted of the switch; the first value is the command.
    Switch(u8, sealed::Kind),
    /// What is counted of the signatures, by whether the call was drawn and by
    /// its command.
    Signature(char, bool, u8, signatures::Kind),
    /// What is counted of the moves, by whether the call was drawn.
    Move(char, bool, moves::Kind),
    /// What is counted of lists in two orders, by whether their calls were drawn.
    Order(char, bool, order::Kind),
    /// What is counted of lines given to the listener, by whether they were drawn.
    Line(bool, listener::Kind),
    /// A frame served off a line; the first value is the command.
    OffLine(u8, listener::Served),
    /// What is counted of the panel's program, by whether the call was drawn.
    Panel(bool, panel::Kind),
    /// What is counted of questions for a volume, by whether they were drawn.
    Quantity(bool, quantity::Kind),
    /// What is counted of table files, by whether they were drawn.
    TableFile(bool, table_file::Kind),
}

/// How many came out as they should, of so many.
#[derive(Clone, Copy, Default)]
struct Right {
    right: usize,
    all: usize,
}

impl Right {
    fn note(&mut self, right: bool) {
        self.right += usize::from(right);
        self.all += 1;
    }
}

/// How often each thing that the test must reach was reached.
pub struct Coverage {
    things: BTreeMap<Thing, usize>,
    /// By fixed call with its line: the rules that it shows, a call each.
    fixed: BTreeMap<fixed::Seen, (Vec<String>, usize)>,
    /// The words of each wrong block that is given the desk's stream as well.
    desk_words: Vec<signatures::Words>,
    /// Lists as they come up.
    order: order::Tally,
    /// Lines as they come up.
    listener: listener::Tally,
    /// Calls of the panel's program, if it is compared.
    panel: Option<panel::Tally>,
    /// Questions for a volume as they come up.
    quantity: quantity::Tally,
    /// Table files as they come up.
    table_file: table_file::Tally,
}

impl Coverage {
    /// Says whether the panel's program is compared too.
    pub fn new(panel: bool) -> Self {
        let mut coverage = Coverage {
            things: BTreeMap::new(),
            fixed: BTreeMap::new(),
            desk_words: Vec::new(),
            order: order::Tally::default(),
            listener: listener::Tally::default(),
            panel: panel.then(panel::Tally::new),
            quantity: quantity::Tally::default(),
            table_file: table_file::Tally::default(),
        };
        for (seen, rule) in fixed::wanted() {
            coverage.fixed.entry(seen).or_default().0.push(rule);
        }
        coverage
    }

    pub fn count(&mut self, came: &Came) {
        let &Came {
            call,
            input,
            number,
            line,
            ..
        } = came;
        self.add(Thing::Number(call, number));
        if matches!(call, 'd' | 'S' | 'K' | 'T') {
            self.count_letters(call, number, input);
            self.count_sums(call, number, input);
        }
        if matches!(call, 'd' | 'S') {
            self.count_command(call, number, input);
            self.count_temperatures(came);
        }
        self.count_switch(came);
        self.count_signatures(came);
        self.count_moves(came);
        self.count_order(came);
        self.count_listener(came);
        self.count_quantity(came);
        self.count_table_file(came);
        let seen = (call, input.to_vec(), line.to_string());
        if let Some((_, count)) = self.fixed.get_mut(&seen) {
            *count += 1;
        }
    }

    fn count_letters(&mut self, call: char, number: u8, frame: &[u8]) {
        if has_small_letter(frame) {
            self.add(Thing::SmallLetter(call, number));
        }
        if number == 0 && has_both_cases(frame) {
            self.add(Thing::BothCases(call));
        }
        if number == 5 {
            if let Some(character) = only_wrong(frame) {
                self.add(Thing::NoDigit(call, character));
            }
        }
    }

    fn count_sums(&mut self, call: char, number: u8, frame: &[u8]) {
        if (1..6).contains(&number) {
            return; // given before the checksum's test
        }
        let body = checksum::body(frame);
        for (place, (_, fits)) in KINDS.iter().enumerate() {
            if fits(&body, number) {
                self.add(Thing::Sum(call, place));
            }
        }
        let right = number != 6;
        for (place, (_, takes)) in WRONG.iter().enumerate() {
            if takes(&body) != right {
                self.add(Thing::Misjudged(call, place, right));
            }
        }
    }

    /// The command of a served piece counts if the frame itself is good.
    fn count_command(&mut self, call: char, number: u8, piece: &[u8]) {
        let mut contents = [0; 132];
        if block::take_apart(piece, &mut contents).is_ok() {
            let (small, accepted) = (has_small_letter(piece), number == 0);
            self.add(Thing::Command(call, small, contents[1], accepted));
        }
    }

    fn add(&mut self, thing: Thing) {
        *self.things.entry(thing).or_default() += 1;
    }

    fn of(&self, thing: Thing) -> usize {
        self.things.get(&thing).copied().unwrap_or(0)
    }

    /// What should have come up and never did.
    pub fn missing(&self) -> Vec<String> {
        let mut missing = Vec::new();
        for (thing, name) in wanted() {
            if self.of(thing) == 0 {
                missing.push(name);
            }
        }
        missing.extend(self.missing_of_order());
        missing.extend(self.missing_of_listener());
        missing.extend(self.missing_of_panel());
        missing.extend(self.missing_of_quantity());
        missing.extend(self.missing_of_table_file());
        for ((_, _, line), (rules, count)) in &self.fixed {
            if *count < rules.len() {
                missing.push(format!("{} with the line {line}", rules.join("; ")));
            }
        }
        missing
    }

    pub fn print(&self, out: &mut impl Write) -> io::Result<()> {
        self.print_numbers(out)?;
        self.print_commands(out)?;
        self.print_letters(out)?;
        self.print_sums(out)?;
        self.print_misjudged(out)?;
        self.print_tables(out)?;
        self.print_misread(out)?;
        self.print_switch(out)?;
        self.print_signatures(out)?;
        self.print_moves(out)?;
        self.print_order(out)?;
        self.print_listener(out)?;
        self.print_panel(out)?;
        self.print_quantity(out)?;
        self.print_table_file(out)?;
        let fixed = self.fixed.values();
        let wanted: usize = fixed.clone().map(|(rules, _)| rules.len()).sum();
        let came: usize = fixed.map(|(rules, count)| rules.len().min(*count)).sum();
        writeln!(
            out,
            "\nfixed calls that came out as written: {came} of {wanted}\n"
        )
    }

    fn print_numbers(&self, out: &mut impl Write) -> io::Result<()> {
        print_row(out, "number", NUMBERS.map(usize::from))?;
        for (call, name, _) in OF_FRAMES.into_iter().chain(OTHERS) {
            let counts = NUMBERS.map(|number| self.of(Thing::Number(call, number)));
            print_row(out, name, counts)?;
        }
        writeln!(out, "\nof these, frames with a small letter")?;
        for (call, name, _) in OF_FRAMES {
            let counts = NUMBERS.map(|number| self.of(Thing::SmallLetter(call, number)));
            print_row(out, name, counts)?;
        }
        Ok(())
    }

    fn print_commands(&self, out: &mut impl Write) -> io::Result<()> {
        writeln!(
            out,
            "\naccepted and refused by command, and by whether a letter is small"
        )?;
        write!(out, "{:12}", "")?;
        for (_, _, name) in SERVED {
            write!(out, "{name:>20}")?;
        }
        writeln!(out)?;
        for command in COMMANDS {
            write!(out, "{command:<12}")?;
            for (call, small, _) in SERVED {
                let [accepted, refused] = [true, false]
                    .map(|accepted| self.of(Thing::Command(call, small, command, accepted)));
                write!(out, "{accepted:>11} {refused:>8}")?;
            }
            writeln!(out)?;
        }
        Ok(())
    }

    fn print_letters(&self, out: &mut impl Write) -> io::Result<()> {
        writeln!(
            out,
            "\naccepted with both cases in one byte, and refused 5 for one character alone"
        )?;
        let [a, b, c, d, e, f] = BESIDE_DIGITS;
        writeln!(
            out,
            "{:12}{:>8}{a:>8}{b:>8}{c:>8}{d:>8}{e:>8}{f:>8}",
            "", "both"
        )?;
        for (call, name, _) in OF_FRAMES {
            let both = self.of(Thing::BothCases(call));
            let refused = BESIDE_DIGITS.map(|character| self.of(Thing::NoDigit(call, character)));
            print_row(out, name, [both].into_iter().chain(refused))?;
        }
        Ok(())
    }

    fn print_sums(&self, out: &mut impl Write) -> io::Result<()> {
        writeln!(out, "\nby number and sum of the body")?;
        write!(out, "{:28}", "")?;
        for (_, name, _) in OF_FRAMES {
            write!(out, "{name:>12}")?;
        }
        writeln!(out)?;
        for (place, (kind, _)) in KINDS.iter().enumerate() {
            write!(out, "{kind:28}")?;
            for (call, _, _) in OF_FRAMES {
                write!(out, "{:>12}", self.of(Thing::Sum(call, place)))?;
            }
            writeln!(out)?;
        }
        Ok(())
    }

    fn print_misjudged(&self, out: &mut impl Write) -> io::Result<()> {
        writeln!(
            out,
            "\nright frames that a wrong test would refuse, and wrong ones that it would take"
        )?;
        write!(out, "{:28}", "")?;
        for (_, name, _) in OF_FRAMES {
            write!(out, "{name:>20}")?;
        }
        writeln!(out)?;
        for (place, (test, _)) in WRONG.iter().enumerate() {
            write!(out, "{test:28}")?;
            for (call, _, _) in OF_FRAMES {
                let [refused, taken] =
                    [true, false].map(|right| self.of(Thing::Misjudged(call, place, right)));
                write!(out, "{refused:>11} {taken:>8}")?;
            }
            writeln!(out)?;
        }
        Ok(())
    }
}

/// The name of the calls that have this letter.
fn name_of(letter: char) -> &'static str {
    let mut calls = OF_FRAMES.into_iter().chain(OTHERS);
    let call = calls.find(|&(call, _, _)| call == letter);
    call.map_or("", |(_, name, _)| name)
}

fn print_row(
    out: &mut impl Write,
    name: &str,
    counts: impl IntoIterator<Item = usize>,
) -> io::Result<()> {
    write!(out, "{name:<12}")?;
    for count in counts {
        write!(out, "{count:>8}")?;
    }
    writeln!(out)
}

fn has_small_letter(frame: &[u8]) -> bool {
    frame.iter().any(|c| matches!(c, b'a'..=b'f'))
}

/// Whether a byte of this frame, whose length is good, is sent in both cases.
fn has_both_cases(frame: &[u8]) -> bool {
    frame[1..].chunks_exact(2).any(|pair| {
        let letters = pair.iter().all(|c| c.is_ascii_alphabetic());
        letters && pair[0].is_ascii_lowercase() != pair[1].is_ascii_lowercase()
    })
}

/// The character in this frame, whose ends are good, that is no digit, if it
/// has only one such or several alike.
fn only_wrong(frame: &[u8]) -> Option<u8> {
    let body = &frame[1..frame.len() - 2];
    let mut wrong = body.iter().filter(|c| !c.is_ascii_hexdigit());
    let first = wrong.next()?;
    wrong.all(|c| c == first).then_some(*first)
}

/// All that must not stay at 0, with a name for each.
fn wanted() -> Vec<(Thing, String)> {
    let mut wanted = Vec::new();
    for (call, name, numbers) in OF_FRAMES.into_iter().chain(OTHERS) {
        for &number in numbers {
            let name = format!("{name}: number {number}");
            wanted.push((Thing::Number(call, number), name));
        }
    }
    wanted.extend(wanted_of_commands());
    wanted.extend(wanted_of_letters());
    wanted.extend(wanted_of_sums());
    wanted.extend(temperatures::wanted());
    wanted.extend(sealed::wanted());
    wanted.extend(signatures::wanted());
    wanted.extend(moves::wanted());
    wanted.extend(order::wanted());
    wanted.extend(listener::wanted());
    wanted.extend(quantity::wanted());
    wanted.extend(table_file::wanted());
    wanted
}

fn wanted_of_commands() -> Vec<(Thing, String)> {
    let mut wanted = Vec::new();
    for (call, small, name) in SERVED {
        for command in COMMANDS {
            for (accepted, word) in [(true, "accepted"), (false, "refused")] {
                let name = format!("{name}: command {command} {word}");
                wanted.push((Thing::Command(call, small, command, accepted), name));
            }
        }
    }
    wanted
}

fn wanted_of_letters() -> Vec<(Thing, String)> {
    let mut wanted = Vec::new();
    for (call, name, numbers) in OF_FRAMES {
        for &number in numbers {
            let name = format!("{name}, small letter: number {number}");
            wanted.push((Thing::SmallLetter(call, number), name));
        }
        for character in BESIDE_DIGITS {
            let name = format!("{name}: character {character} refused");
            wanted.push((Thing::NoDigit(call, character), name));
        }
        let name = format!("{name}: both cases in one byte");
        wanted.push((Thing::BothCases(call), name));
    }
    wanted
}

fn wanted_of_sums() -> Vec<(Thing, String)> {
    let mut wanted = Vec::new();
    for (call, name, _) in OF_FRAMES {
        for (place, (kind, _)) in KINDS.iter().enumerate() {
            wanted.push((Thing::Sum(call, place), format!("{name}: number {kind}")));
        }
        for (place, &(test, _)) in WRONG.iter().enumerate() {
            let refused = format!("{name}: a right frame refused with {test}");
            wanted.push((Thing::Misjudged(call, place, true), refused));
            if test != CARRIES_KEPT {
                let taken = format!("{name}: a wrong frame taken with {test}");
                wanted.push((Thing::Misjudged(call, place, false), taken));
            }
        }
    }
    wanted
}
