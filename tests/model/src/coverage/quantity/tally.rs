//! What a run has asked and been answered so far, and what the answers are held
//! to.

use std::collections::{BTreeMap, BTreeSet};
use std::io::{self, Write};

use super::{kinds_of, Kind, Question, WHOSE};
use crate::coverage::{Came, Right};
use crate::quantity::told;
use crate::tables::{Row, ROWS};

/// Calls that print the image's digest.
const SHOWING: [char; 5] = ['F', 'S', 'K', 'U', 'D'];

/// The volumes that one table was answered with, by level, as long as its rows are
/// the same.
#[derive(Default)]
struct Answers {
    rows: Vec<Row>,
    volumes: BTreeMap<u32, u32>,
}

impl Answers {
    /// Takes an answer; says of the answer at the next lower level and of that at
    /// the next higher one, where there are such, whether it is in order with it.
    fn take(&mut self, question: &Question) -> Vec<bool> {
        if self.rows != question.rows {
            self.rows = question.rows.clone();
            self.volumes.clear();
        }
        let (level, volume) = (question.level, question.volume);
        let lower = self.volumes.range(..=level).next_back();
        let higher = self.volumes.range(level..).next();
        let lower = lower.map(|(_, &other)| other <= volume);
        let higher = higher.map(|(_, &other)| volume <= other);
        let held = lower.into_iter().chain(higher).collect();
        self.volumes.insert(level, volume);
        held
    }
}

/// Rows and steps of a table, by their numbers.
#[derive(Default)]
struct Reached {
    /// Rows at whose level an answer was given, and rows above which one was.
    at: BTreeSet<usize>,
    above: BTreeSet<usize>,
    /// Steps at which levels alone fell, and volumes alone, and nowhere else.
    falls: [BTreeSet<usize>; 2],
}

impl Reached {
    fn note(&mut self, question: &Question) {
        if let Some(found) = &question.found {
            match found.distance {
                0 => self.at.insert(found.number),
                _ => self.above.insert(found.number),
            };
        }
        match (&question.falls[0][..], &question.falls[1][..]) {
            ([step], []) => _ = self.falls[0].insert(*step),
            ([], [step]) => _ = self.falls[1].insert(*step),
            _ => {}
        }
    }

    /// How many of so many there were, each with a name.
    fn counts(&self) -> [(&'static str, usize, usize); 4] {
        let [levels, volumes] = &self.falls;
        [
            (
                "rows at whose level a volume was asked",
                self.at.len(),
                ROWS,
            ),
            (
                "rows above which a volume was asked",
                self.above.len(),
                ROWS - 1,
            ),
            ("steps at which levels alone fell", levels.len(), ROWS - 1),
            ("steps at which volumes alone fell", volumes.len(), ROWS - 1),
        ]
    }
}

#[derive(Default)]
pub struct Tally {
    /// By the table's place among the sixteen.
    answers: [Answers; 16],
    /// Those of fixed calls, and those of drawn ones.
    reached: [Reached; 2],
    /// The image at the first question of a script and at the last one.
    images: Option<[Vec<u8>; 2]>,
    /// Questions that get the same as `quantity` tells.
    told: Right,
    /// Refusals with volume 0.
    refused: Right,
    /// Answers at a row's level that are the volume of the last row of that level,
    /// and answers between a row's volume and the next one's.
    at_row: Right,
    between: Right,
    /// Pairs of answers of one table of which the higher level has not the lower
    /// volume.
    rising: Right,
}

impl Tally {
    /// Takes the next call; gives what is counted of it.
    pub fn take(&mut self, came: &Came) -> Vec<Kind> {
        if came.before.is_none() {
            self.images = None; // another script
        }
        let mut kinds = Vec::new();
        if let (Some(('A', number, _)), true) = (came.before, SHOWING.contains(&came.call)) {
            kinds.push(Kind::Shown(*number == 0));
        }
        if let Some(question) = Question::new(came) {
            kinds.extend(kinds_of(&question));
            kinds.extend(self.count(&question));
        }
        kinds
    }

    /// Holds a question to the rule told otherwise and to what is said of answers;
    /// gives what is counted of questions before it.
    fn count(&mut self, question: &Question) -> Vec<Kind> {
        let answer = (question.number, question.volume);
        let &Question {
            image,
            table,
            level,
            ..
        } = question;
        self.told.note(told(image, table, level) == answer);
        if question.number == 0 {
            self.hold(question);
        } else {
            self.refused.note(question.volume == 0);
        }
        self.reached[usize::from(question.drawn)].note(question);
        self.remember(question)
    }

    fn hold(&mut self, question: &Question) {
        let last = |row: &&Row| u32::from(row.level) == question.level;
        if let Some(row) = question.rows.iter().rfind(last) {
            self.at_row.note(question.volume == u32::from(row.volume));
        }
        if let Some(found) = &question.found {
            let volume = u32::from(found.row.volume);
            let within = (volume..=volume + found.rise).contains(&question.volume);
            self.between.note(within);
        }
        if let Some(place) = question.place {
            for held in self.answers[place].take(question) {
                self.rising.note(held);
            }
        }
    }

    /// What is answered otherwise on the image of earlier questions.
    fn remember(&mut self, question: &Question) -> Vec<Kind> {
        let answer = (question.number, question.volume);
        let mut kinds = Vec::new();
        let image = question.image.to_vec();
        let images = match self.images.take() {
            Some([first, last]) => {
                for (old, kind) in [(&first, Kind::SinceFirst), (&last, Kind::SinceLast)] {
                    if *old != image && told(old, question.table, question.level) != answer {
                        kinds.push(kind);
                    }
                }
                [first, image]
            }
            None => [image.clone(), image],
        };
        self.images = Some(images);
        kinds
    }

    fn held(&self) -> [(Right, &'static str); 5] {
        [
            (
                self.told,
                "questions answered as the rule told otherwise has it",
            ),
            (self.refused, "refusals with volume 0"),
            (
                self.at_row,
                "answers at a row's level that are the last such row's volume",
            ),
            (
                self.between,
                "answers between a row's volume and the next one's",
            ),
            (
                self.rising,
                "pairs of levels of a table of which the higher has no lower answer",
            ),
        ]
    }

    pub fn missing(&self) -> Vec<String> {
        let mut missing = Vec::new();
        for (of, name) in self.held() {
            if of.right < of.all || of.all == 0 {
                missing.push(format!("all {name}"));
            }
        }
        for ((_, whose), reached) in WHOSE.iter().zip(&self.reached) {
            for (name, count, all) in reached.counts() {
                if count < all {
                    missing.push(format!("quantity, {whose}: all {name}"));
                }
            }
        }
        missing
    }

    pub fn print(&self, out: &mut impl Write) -> io::Result<()> {
        writeln!(out)?;
        for ((_, whose), reached) in WHOSE.iter().zip(&self.reached) {
            for (name, count, all) in reached.counts() {
                writeln!(out, "{name}, {whose}: {count} of {all}")?;
            }
        }
        for (Right { right, all }, name) in self.held() {
            writeln!(out, "{name}: {right} of {all}")?;
        }
        Ok(())
    }
}
