//! What document 02, wish 3 wants reached, by fixed calls and by drawn ones
//! alike: each table, each part and each row, questions of every kind that are
//! answered or refused, and questions that an answerer with another rule would
//! answer otherwise. Each question that comes up is also held to the rule as
//! `quantity` tells it, and each answer to what the wish says of answers.

mod kinds;
mod question;
mod steps;
mod tally;
mod wrong;

use std::io::{self, Write};

use self::question::Question;
use self::steps::{PARTS, TABLE_NUMBERS};
use super::{Came, Coverage, Thing};
use crate::items::ITEMS;

pub use self::tally::Tally;

/// Something that is counted of questions. Each value is a place in the list of
/// that kind.
#[derive(Clone, Copy, Debug, PartialEq, Eq, PartialOrd, Ord)]
pub enum Kind {
    /// A table, by its place among the sixteen, and the number that it got.
    Table(usize, u8),
    /// A row of `PARTS`, and the part.
    Part(usize, usize),
    /// A row of `kinds::all`.
    Row(usize),
    /// The image shown by the next call, by whether the question was answered.
    Shown(bool),
    /// A question that a wrong answerer, by its place in `wrong::all`, answers
    /// otherwise, and one that the image as it was at the first question of the
    /// script, or at the one before, would have had answered otherwise.
    Wrong(usize),
    SinceFirst,
    SinceLast,
}

/// Whose calls are counted apart, by whether they are drawn.
const WHOSE: [(bool, &str); 2] = [(false, "fixed"), (true, "drawn")];

fn kinds_of(question: &Question) -> Vec<Kind> {
    let mut kinds = steps::kinds_of(question);
    for (place, (_, fits)) in kinds::all().enumerate() {
        if fits(question) {
            kinds.push(Kind::Row(place));
        }
    }
    for (place, (_, answerer)) in wrong::all().iter().enumerate() {
        if answerer.answer(question) != (question.number, question.volume) {
            kinds.push(Kind::Wrong(place));
        }
    }
    kinds
}

/// Rows of what is counted, those of wrong answerers last.
fn rows() -> Vec<(Kind, &'static str)> {
    let mut rows = Vec::new();
    for (place, &(name, _)) in kinds::all().enumerate() {
        rows.push((Kind::Row(place), name));
    }
    rows.push((Kind::Shown(true), "0, then the image shown"));
    rows.push((Kind::Shown(false), "refused, then the image shown"));
    for (place, (name, _)) in wrong::all().iter().enumerate() {
        rows.push((Kind::Wrong(place), name.as_str()));
    }
    rows.push((Kind::SinceFirst, "image remembered from the first question"));
    rows.push((Kind::SinceLast, "image remembered from the last question"));
    rows
}

impl Coverage {
    pub(super) fn count_quantity(&mut self, came: &Came) {
        for kind in self.quantity.take(came) {
            self.add(Thing::Quantity(came.drawn, kind));
        }
    }

    /// What came out otherwise than wish 3 has it, or never was put to the test.
    pub(super) fn missing_of_quantity(&self) -> Vec<String> {
        self.quantity.missing()
    }

    pub(super) fn print_quantity(&self, out: &mut impl Write) -> io::Result<()> {
        for (drawn, whose) in WHOSE {
            self.print_tables_asked(out, drawn, whose)?;
            self.print_parts_asked(out, drawn, whose)?;
        }
        writeln!(
            out,
            "\nquestions for a volume by what they meet, and those that wrong answerers would answer otherwise"
        )?;
        writeln!(out, "{:44}{:>12}{:>12}", "", "fixed", "drawn")?;
        for (kind, name) in rows() {
            let [fixed, drawn] = WHOSE.map(|(drawn, _)| self.of(Thing::Quantity(drawn, kind)));
            writeln!(out, "{name:44}{fixed:>12}{drawn:>12}")?;
        }
        self.quantity.print(out)
    }

    fn print_tables_asked(&self, out: &mut impl Write, drawn: bool, whose: &str) -> io::Result<()> {
        writeln!(out, "\nquestions for a volume by table and number, {whose}")?;
        write!(out, "{:32}", "")?;
        for table in &ITEMS[..16] {
            write!(out, "{:>7}", table.number)?;
        }
        writeln!(out)?;
        for number in TABLE_NUMBERS {
            write!(out, "{number:<32}")?;
            for place in 0..16 {
                let kind = Kind::Table(place, number);
                write!(out, "{:>7}", self.of(Thing::Quantity(drawn, kind)))?;
            }
            writeln!(out)?;
        }
        Ok(())
    }

    fn print_parts_asked(&self, out: &mut impl Write, drawn: bool, whose: &str) -> io::Result<()> {
        writeln!(out, "\nquestions for a volume by part, {whose}")?;
        write!(out, "{:32}", "")?;
        for part in 1..=11 {
            write!(out, "{part:>7}")?;
        }
        writeln!(out)?;
        for (place, row) in PARTS.iter().enumerate() {
            write!(out, "{:32}", row.name)?;
            for part in 1..=row.parts {
                let kind = Kind::Part(place, part);
                write!(out, "{:>7}", self.of(Thing::Quantity(drawn, kind)))?;
            }
            writeln!(out)?;
        }
        Ok(())
    }
}

/// All that must not stay at 0, with a name for each.
pub(super) fn wanted() -> Vec<(Thing, String)> {
    let mut wanted = Vec::new();
    for (drawn, whose) in WHOSE {
        let mut want = |kind, name: String| {
            let name = format!("quantity, {whose}: {name}");
            wanted.push((Thing::Quantity(drawn, kind), name));
        };
        for (place, table) in ITEMS[..16].iter().enumerate() {
            for number in TABLE_NUMBERS {
                let name = format!("table {}, number {number}", table.number);
                want(Kind::Table(place, number), name);
            }
        }
        for (place, row) in PARTS.iter().enumerate() {
            for part in 1..=row.parts {
                want(
                    Kind::Part(place, part),
                    format!("part {part}, {}", row.name),
                );
            }
        }
        for (kind, name) in rows() {
            want(kind, name.to_string());
        }
    }
    wanted
}

#[cfg(test)]
mod tests {
    use std::collections::BTreeSet;

    use super::*;
    use crate::compare::probe_calls;
    use crate::probe_scripts;

    /// The rule stands here once more, for wrong ones to differ from it in one
    /// thing each. It must be the model's.
    #[test]
    fn right_answerer_does_as_the_model() {
        let mut questions = 0;
        for number in 0..probe_scripts::purposeful() + 30 {
            let (name, script) = probe_scripts::script(8, number);
            if !name.starts_with("quantity") && name != "calls by chance" {
                continue;
            }
            probe_calls(&script, true, |came| {
                if let Some(question) = Question::new(came) {
                    let answer = wrong::RIGHT.answer(&question);
                    assert_eq!(answer, (question.number, question.volume), "{}", came.line);
                    questions += 1;
                }
            });
        }
        assert!(questions > 5_000, "only {questions} questions");
    }

    /// Whatever the seed, the drawn scripts with a purpose reach all that they are
    /// for.
    #[test]
    fn drawn_scripts_reach_all_of_their_own() {
        for seed in 0..2 {
            let (mut tally, mut seen) = (Tally::default(), BTreeSet::new());
            for number in 0..probe_scripts::purposeful() {
                let (name, script) = probe_scripts::script(seed, number);
                if name.starts_with("quantity") && !probe_scripts::is_fixed(number) {
                    probe_calls(&script, true, |came| seen.extend(tally.take(came)));
                }
            }
            let mut missing = tally.missing();
            missing.retain(|name| !name.starts_with("quantity, fixed"));
            for (thing, name) in wanted() {
                if matches!(thing, Thing::Quantity(true, kind) if !seen.contains(&kind)) {
                    missing.push(name);
                }
            }
            assert!(missing.is_empty(), "seed {seed}: {missing:?}");
        }
    }
}
