//! What document 02, wish 9 wants reached through the panel's C program, by fixed
//! calls and by drawn ones alike: each number, each command with switch numbers
//! of every kind, table numbers of every width, buffers at the limits, and calls
//! that a host which drops some bits of a number would have answered otherwise.

mod kinds;
mod switches;
mod wrong;

use std::collections::BTreeMap;
use std::io::{self, Write};

use self::kinds::{CALLS, ROWS};
use self::switches::{columns, SWITCHES};
use self::wrong::{SWITCHES_READ, TABLES_READ};
use super::{print_row, Coverage, Thing, NUMBERS};
use crate::fixed;
use crate::streams::COMMANDS;

/// What a call of the panel's program is given, as plain numbers and bytes.
#[derive(Clone, Copy)]
pub enum Asked<'a> {
    /// The switch's number, and a frame.
    Serve(u64, &'a [u8]),
    /// A table's number.
    Held(u64),
    Fresh,
}

/// A call of the panel's program as it came up in a run.
pub struct Call<'a> {
    pub letter: char,
    /// Whether it is from a script of the seed and no fixed call.
    pub drawn: bool,
    /// What its record has behind the letter, but for a frame's length.
    pub input: &'a [u8],
    pub asked: Asked<'a>,
    pub number: u8,
    /// The model's line for it.
    pub line: &'a str,
    pub image_before: &'a [u8],
    pub image: &'a [u8],
    /// How long the output is.
    pub room: usize,
}

impl Call<'_> {
    /// A number that its line has behind the refusal number.
    fn lent(&self, place: usize) -> u64 {
        let word = self.line.split(' ').nth(2 + place);
        word.and_then(|word| word.parse().ok()).unwrap_or(0)
    }
}

/// Something that is counted of the panel's calls. Each value is a place in the
/// list of that kind.
#[derive(Clone, Copy, PartialEq, Eq, PartialOrd, Ord)]
pub enum Kind {
    /// The number that a call gave, by its place in `CALLS`.
    Number(usize, u8),
    /// A frame that shows the switch's number, by its place in `SWITCHES`, and its
    /// command.
    Switch(usize, u8),
    /// A row of `ROWS`.
    Row(usize),
    /// A call that a wrong reading of a switch's number or a table's, by its place
    /// in `SWITCHES_READ` or `TABLES_READ`, would answer otherwise.
    WrongSwitch(usize),
    WrongTable(usize),
}

/// What a run has put to the panel's program so far.
pub struct Tally {
    scripts: usize,
    calls: usize,
    /// By fixed call with its line: the rules that it shows, a call each.
    fixed: BTreeMap<fixed::Seen, (Vec<String>, usize)>,
}

impl Tally {
    pub fn new() -> Self {
        let mut fixed: BTreeMap<fixed::Seen, (Vec<String>, usize)> = BTreeMap::new();
        for (seen, rule) in fixed::wanted_of_panel() {
            fixed.entry(seen).or_default().0.push(rule);
        }
        Tally {
            scripts: 0,
            calls: 0,
            fixed,
        }
    }
}

impl Coverage {
    pub fn count_panel_script(&mut self) {
        if let Some(tally) = &mut self.panel {
            tally.scripts += 1;
        }
    }

    pub fn count_panel(&mut self, call: &Call) {
        let Some(tally) = &mut self.panel else {
            return;
        };
        tally.calls += 1;
        let seen = (call.letter, call.input.to_vec(), call.line.to_string());
        if let Some((_, count)) = tally.fixed.get_mut(&seen) {
            *count += 1;
        }
        for kind in kinds_of(call) {
            self.add(Thing::Panel(call.drawn, kind));
        }
    }

    /// What should have come up and never did, if the panel's program is compared.
    pub(super) fn missing_of_panel(&self) -> Vec<String> {
        let Some(tally) = &self.panel else {
            return Vec::new();
        };
        let mut missing = Vec::new();
        for (thing, name) in wanted() {
            if self.of(thing) == 0 {
                missing.push(name);
            }
        }
        for ((_, _, line), (rules, count)) in &tally.fixed {
            if *count < rules.len() {
                let rules = rules.join("; ");
                missing.push(format!("panel: {rules} with the line {line}"));
            }
        }
        missing
    }

    pub(super) fn print_panel(&self, out: &mut impl Write) -> io::Result<()> {
        let Some(tally) = &self.panel else {
            return writeln!(out, "\nthe panel's program was not compared");
        };
        self.print_panel_numbers(out)?;
        self.print_panel_switches(out)?;
        self.print_panel_rows(out)?;
        let wanted: usize = tally.fixed.values().map(|(rules, _)| rules.len()).sum();
        let came = tally.fixed.values();
        let came: usize = came.map(|(rules, count)| rules.len().min(*count)).sum();
        writeln!(
            out,
            "\nscripts through the panel's program: {}, with {} calls\n\
             its own fixed calls that came out as written: {came} of {wanted}",
            tally.scripts, tally.calls,
        )
    }

    fn print_panel_numbers(&self, out: &mut impl Write) -> io::Result<()> {
        for (drawn, whose) in WHOSE {
            writeln!(out, "\nthe panel's calls by number, {whose}")?;
            print_row(out, "number", NUMBERS.map(usize::from))?;
            for (place, call) in CALLS.iter().enumerate() {
                let count = |number| self.of(Thing::Panel(drawn, Kind::Number(place, number)));
                print_row(out, call.name, NUMBERS.map(count))?;
            }
        }
        Ok(())
    }

    fn print_panel_switches(&self, out: &mut impl Write) -> io::Result<()> {
        for (drawn, whose) in WHOSE {
            writeln!(
                out,
                "\nthe panel's frames that are served, and writes that 0 alone would have served, by switch number and command, {whose}"
            )?;
            write!(out, "{:24}", "")?;
            for command in COMMANDS {
                write!(out, "{command:>7}")?;
            }
            writeln!(out)?;
            for (place, (name, _)) in SWITCHES.iter().enumerate() {
                write!(out, "{name:24}")?;
                for command in COMMANDS {
                    let kind = Kind::Switch(place, command);
                    write!(out, "{:>7}", self.of(Thing::Panel(drawn, kind)))?;
                }
                writeln!(out)?;
            }
        }
        Ok(())
    }

    fn print_panel_rows(&self, out: &mut impl Write) -> io::Result<()> {
        writeln!(
            out,
            "\nthe panel's calls by what they meet, and those that wrong readings of a number would answer otherwise"
        )?;
        writeln!(out, "{:40}{:>12}{:>12}", "", "fixed", "drawn")?;
        for (kind, name) in rows() {
            let [fixed, drawn] = WHOSE.map(|(drawn, _)| self.of(Thing::Panel(drawn, kind)));
            writeln!(out, "{name:40}{fixed:>12}{drawn:>12}")?;
        }
        Ok(())
    }
}

/// Whose calls are counted apart, by whether they are drawn.
const WHOSE: [(bool, &str); 2] = [(false, "fixed"), (true, "drawn")];

fn kinds_of(call: &Call) -> Vec<Kind> {
    let mut kinds = Vec::new();
    for (place, of) in CALLS.iter().enumerate() {
        if (of.fits)(call) {
            kinds.push(Kind::Number(place, call.number));
        }
    }
    for (place, (_, _, fits)) in ROWS.iter().enumerate() {
        if fits(call) {
            kinds.push(Kind::Row(place));
        }
    }
    kinds.extend(switches::kinds_of(call));
    kinds.extend(wrong::kinds_of(call));
    kinds
}

/// Rows of what is counted, those of wrong readings last.
fn rows() -> impl Iterator<Item = (Kind, String)> {
    let rows = ROWS.iter().enumerate();
    let rows =
        rows.map(|(place, (letter, name, _))| (Kind::Row(place), format!("{letter}, {name}")));
    let switches = SWITCHES_READ.iter().enumerate();
    let switches =
        switches.map(|(place, (name, _))| (Kind::WrongSwitch(place), format!("switch {name}")));
    let tables = TABLES_READ.iter().enumerate();
    let tables =
        tables.map(|(place, (name, _))| (Kind::WrongTable(place), format!("table {name}")));
    rows.chain(switches).chain(tables)
}

/// All that must not stay at 0, with a name for each.
fn wanted() -> Vec<(Thing, String)> {
    let mut wanted = Vec::new();
    for (drawn, whose) in WHOSE {
        let mut want = |kind, name: String| {
            let name = format!("panel, {whose}: {name}");
            wanted.push((Thing::Panel(drawn, kind), name));
        };
        for (place, call) in CALLS.iter().enumerate() {
            let numbers = if drawn { call.drawn } else { call.fixed };
            for &number in numbers {
                let name = format!("{}: number {number}", call.name);
                want(Kind::Number(place, number), name);
            }
        }
        for (kind, name) in columns() {
            want(kind, name);
        }
        for (kind, name) in rows() {
            want(kind, name);
        }
    }
    wanted
}

#[cfg(test)]
mod tests {
    use super::*;
    use crate::compare::panel_calls;
    use crate::panel_scripts;

    /// Whatever the seed, the scripts with a purpose reach all that they are for.
    /// What the probe's letters must reach is left to the probe's scripts.
    #[test]
    fn scripts_with_a_purpose_reach_all_of_their_own() {
        for seed in 0..3 {
            let mut coverage = Coverage::new(true);
            for number in 0..panel_scripts::purposeful() {
                let (_, script) = panel_scripts::script(seed, number);
                let drawn = !panel_scripts::is_fixed(number);
                panel_calls(&script, drawn, |call| coverage.count_panel(call));
            }
            let mut missing = coverage.missing_of_panel();
            let probes = |name: &String| {
                [": S:", ": K:", ": F:", ": H:"]
                    .iter()
                    .any(|of| name.contains(of))
            };
            missing.retain(|name| !probes(name));
            assert!(missing.is_empty(), "seed {seed}: {missing:?}");
        }
    }
}
