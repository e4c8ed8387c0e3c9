//! What document 02, wish 10 wants reached: table files that are accepted, of
//! every table and up to every kind of row; files that are refused for each cause
//! at the first frame, at the last and between, and on both sides of each limit;
//! files with two things wrong; and files that a checker with another rule would
//! judge otherwise. Each file that comes up is also held to the rule as
//! `table_file::told` tells it, and each accepted one that is sent to what the
//! wish says of it.

mod file;
mod kinds;
mod tally;
mod wrong;

use std::io::{self, Write};

use self::file::{File, TABLE};
use self::kinds::{frame_column, step_column, AT_FRAMES, AT_STEPS, FRAMES, ROWS, STEPS};
use super::{Came, Coverage, Thing};
use crate::table_files::TABLE_NUMBERS;

pub use self::tally::Tally;

/// Something that is counted of table files. Each value is a place in the list of
/// that kind.
#[derive(Clone, Copy, Debug, PartialEq, Eq, PartialOrd, Ord)]
pub enum Kind {
    /// The number that a file got.
    Number(u8),
    /// The table of an accepted file.
    Table(usize),
    /// A row of `AT_FRAMES` and a column of `FRAMES`.
    Frame(usize, usize),
    /// A row of `AT_STEPS` and a column of `STEPS`.
    Step(usize, usize),
    /// A row of `ROWS`.
    Row(usize),
    /// Two numbers that a file could get, the lower one first, and whether that is
    /// for an earlier frame than the other.
    Both(u8, u8, bool),
    /// The image shown by the next call, by whether the file was accepted.
    Shown(bool),
    /// A file that a wrong checker, by its place in `wrong::all`, judges otherwise.
    Wrong(usize),
}

const NUMBERS: [u8; 5] = [0, 17, 18, 19, 20];

/// Whose calls are counted apart, by whether they are drawn.
const WHOSE: [(bool, &str); 2] = [(false, "fixed"), (true, "drawn")];

fn kinds_of(file: &File) -> Vec<Kind> {
    let mut kinds = vec![Kind::Number(file.number)];
    if file.number == 0 {
        let table = file.of_all(TABLE);
        let place = TABLE_NUMBERS
            .iter()
            .position(|&number| Some(number) == table);
        kinds.extend(place.map(Kind::Table));
    }
    for (place, (_, frames)) in AT_FRAMES.iter().enumerate() {
        let mut columns: Vec<usize> = frames(file).into_iter().map(frame_column).collect();
        columns.dedup();
        kinds.extend(columns.into_iter().map(|column| Kind::Frame(place, column)));
    }
    for (place, row) in AT_STEPS.iter().enumerate() {
        let mut columns: Vec<usize> = (row.steps)(file).into_iter().map(step_column).collect();
        columns.sort();
        columns.dedup();
        kinds.extend(columns.into_iter().map(|column| Kind::Step(place, column)));
    }
    for (place, (_, fits)) in ROWS.iter().enumerate() {
        if fits(file) {
            kinds.push(Kind::Row(place));
        }
    }
    kinds.extend(both(file));
    for (place, (_, checker)) in wrong::all().enumerate() {
        if checker.number(file) != file.number {
            kinds.push(Kind::Wrong(place));
        }
    }
    kinds
}

/// The number that a file gets, with each higher one that it would get for another
/// frame.
fn both(file: &File) -> Vec<Kind> {
    let mut kinds = Vec::new();
    for (low, at) in (17..).zip(file.culprits) {
        for (high, other) in (17..).zip(file.culprits) {
            if let (true, Some(at), Some(other)) = (low == file.number && low < high, at, other) {
                if at != other {
                    kinds.push(Kind::Both(low, high, at < other));
                }
            }
        }
    }
    kinds
}

/// All pairs of numbers, by whether the lower one is for an earlier frame.
fn pairs() -> Vec<(Kind, String)> {
    let mut pairs = Vec::new();
    for low in 17..20 {
        for high in low + 1..=20 {
            for (earlier, word) in [(true, "behind it"), (false, "before it")] {
                let name = format!("{low}, else {high} for a frame {word}");
                pairs.push((Kind::Both(low, high, earlier), name));
            }
        }
    }
    pairs
}

/// Rows of what is counted alone, those of wrong checkers last.
fn rows() -> Vec<(Kind, String)> {
    let mut rows = Vec::new();
    for (place, (name, _)) in ROWS.iter().enumerate() {
        rows.push((Kind::Row(place), name.to_string()));
    }
    rows.extend(pairs());
    rows.push((Kind::Shown(true), "0, then the image shown".to_string()));
    rows.push((
        Kind::Shown(false),
        "refused, then the image shown".to_string(),
    ));
    for (place, (name, _)) in wrong::all().enumerate() {
        rows.push((Kind::Wrong(place), name.to_string()));
    }
    rows
}

impl Coverage {
    pub(super) fn count_table_file(&mut self, came: &Came) {
        for kind in self.table_file.take(came) {
            self.add(Thing::TableFile(came.drawn, kind));
        }
    }

    /// What came out otherwise than wish 10 has it, or never was put to the test.
    pub(super) fn missing_of_table_file(&self) -> Vec<String> {
        self.table_file.missing()
    }

    pub(super) fn print_table_file(&self, out: &mut impl Write) -> io::Result<()> {
        for (drawn, whose) in WHOSE {
            let of = |kind| self.of(Thing::TableFile(drawn, kind));
            writeln!(out, "\ntable files by number, {whose}")?;
            for number in NUMBERS {
                write!(out, "{number:>8}")?;
            }
            writeln!(out)?;
            for number in NUMBERS {
                write!(out, "{:>8}", of(Kind::Number(number)))?;
            }
            writeln!(out, "\n\naccepted table files by table, {whose}")?;
            for table in TABLE_NUMBERS {
                write!(out, "{table:>8}")?;
            }
            writeln!(out)?;
            for place in 0..TABLE_NUMBERS.len() {
                write!(out, "{:>8}", of(Kind::Table(place)))?;
            }
            writeln!(out, "\n\ntable files with this at one frame, {whose}")?;
            let frames = AT_FRAMES.iter().enumerate();
            print_columns(
                out,
                &FRAMES,
                frames.map(|(place, (name, _))| {
                    (
                        *name,
                        (0..FRAMES.len())
                            .map(|column| of(Kind::Frame(place, column)))
                            .collect(),
                    )
                }),
            )?;
            writeln!(out, "\ntable files with this at one step, {whose}")?;
            let steps = AT_STEPS.iter().enumerate();
            print_columns(
                out,
                &STEPS,
                steps.map(|(place, row)| {
                    (
                        row.name,
                        (0..STEPS.len())
                            .map(|column| of(Kind::Step(place, column)))
                            .collect(),
                    )
                }),
            )?;
        }
        writeln!(
            out,
            "\ntable files by what is in them, and those that wrong checkers would judge otherwise"
        )?;
        writeln!(out, "{:52}{:>12}{:>12}", "", "fixed", "drawn")?;
        for (kind, name) in rows() {
            let [fixed, drawn] = WHOSE.map(|(drawn, _)| self.of(Thing::TableFile(drawn, kind)));
            writeln!(out, "{name:52}{fixed:>12}{drawn:>12}")?;
        }
        self.table_file.print(out)?;
        self.print_wrong_checkers(out)
    }

    /// How many wrong checkers a run tells apart from the model.
    fn print_wrong_checkers(&self, out: &mut impl Write) -> io::Result<()> {
        let all = wrong::all().count();
        let told = |drawn: bool| {
            let kinds = (0..all).map(Kind::Wrong);
            kinds
                .filter(|kind| self.of(Thing::TableFile(drawn, *kind)) > 0)
                .count()
        };
        let (fixed, drawn) = (told(false), told(true));
        writeln!(
            out,
            "wrong checkers told apart, fixed: {fixed} of {all}, drawn: {drawn} of {all}"
        )
    }
}

/// A table with a name before each row.
fn print_columns<'a>(
    out: &mut impl Write,
    columns: &[&str],
    rows: impl Iterator<Item = (&'a str, Vec<usize>)>,
) -> io::Result<()> {
    write!(out, "{:40}", "")?;
    for column in columns {
        write!(out, "{column:>12}")?;
    }
    writeln!(out)?;
    for (name, counts) in rows {
        write!(out, "{name:40}")?;
        for count in counts {
            write!(out, "{count:>12}")?;
        }
        writeln!(out)?;
    }
    Ok(())
}

/// All that must not stay at 0, with a name for each.
pub(super) fn wanted() -> Vec<(Thing, String)> {
    let mut wanted = Vec::new();
    for (drawn, whose) in WHOSE {
        let mut want = |kind, name: String| {
            let name = format!("table file, {whose}: {name}");
            wanted.push((Thing::TableFile(drawn, kind), name));
        };
        for number in NUMBERS {
            want(Kind::Number(number), format!("number {number}"));
        }
        for (place, table) in TABLE_NUMBERS.iter().enumerate() {
            want(Kind::Table(place), format!("table {table} accepted"));
        }
        for (place, (name, _)) in AT_FRAMES.iter().enumerate() {
            for (column, at) in FRAMES.iter().enumerate() {
                want(Kind::Frame(place, column), format!("{name}, {at} frame"));
            }
        }
        for (place, row) in AT_STEPS.iter().enumerate() {
            for (column, at) in STEPS.iter().enumerate().skip(row.from) {
                want(Kind::Step(place, column), format!("{}, {at}", row.name));
            }
        }
        for (kind, name) in rows() {
            want(kind, name);
        }
    }
    wanted
}

#[cfg(test)]
mod tests {
    use std::collections::BTreeSet;

    use super::*;
    use crate::compare::probe_calls;
    use crate::probe_scripts;

    /// The rule stands here once more, for wrong ones to differ from it in one
    /// thing each. It must be the model's.
    #[test]
    fn right_checker_does_as_the_model() {
        let mut files = 0;
        for number in 0..probe_scripts::purposeful() {
            let (name, script) = probe_scripts::script(8, number);
            if name.starts_with("table file") {
                probe_calls(&script, true, |came| {
                    if let Some(file) = File::new(came) {
                        assert_eq!(wrong::RIGHT.number(&file), file.number, "{name}");
                        files += 1;
                    }
                });
            }
        }
        assert!(files > 600, "only {files} files");
    }

    /// Whatever the seed, the drawn scripts reach all that they are for.
    #[test]
    fn drawn_scripts_reach_all_of_their_own() {
        for seed in 0..2 {
            let (mut tally, mut seen) = (Tally::default(), BTreeSet::new());
            for number in 0..probe_scripts::purposeful() {
                let (name, script) = probe_scripts::script(seed, number);
                if name.starts_with("table file") && !probe_scripts::is_fixed(number) {
                    probe_calls(&script, true, |came| seen.extend(tally.take(came)));
                }
            }
            let mut missing = tally.missing();
            for (thing, name) in wanted() {
                if matches!(thing, Thing::TableFile(true, kind) if !seen.contains(&kind)) {
                    missing.push(name);
                }
            }
            assert!(missing.is_empty(), "seed {seed}: {missing:?}");
        }
    }
}
