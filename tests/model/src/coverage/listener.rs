//! What document 02, wish 1 wants reached, by fixed lines and by drawn ones
//! alike: bytes of every kind that find records of every kind, and lines that a
//! listener with another rule would take otherwise. Each line that comes up is
//! also held to the rule as `listener::since` tells it, and each that has noise
//! without 3Ah and is served from a record that is not gathering to the answers
//! that its frames get alone.

mod alone;
mod kinds;
mod served;
mod wrong;

use std::io::{self, Write};

use self::kinds::{Ear, ROWS};
use super::{Came, Coverage, Right, Thing};
use crate::listener::Listener;
use crate::probe::Probe;

pub use self::kinds::Kind;
pub use self::served::Served;

/// What a run has heard so far.
#[derive(Default)]
pub struct Tally {
    /// The listener as the last line left it; nothing before the first line of a
    /// script.
    ear: Option<Ear>,
    /// Bytes behind a 3Ah at which a frame is handed out by either telling, and
    /// those at which none is by either.
    frames: Right,
    none: Right,
    /// Records behind a line on which a 3Ah has come.
    records: Right,
    /// Lines that are answered as their frames alone, and these frames.
    alone: Right,
    frames_alone: usize,
}

impl Tally {
    /// Goes through a line byte by byte, from the record that it found.
    fn hear(&mut self, found: &Listener, line: &[u8]) -> Vec<Kind> {
        let follows = self.ear.take().filter(|ear| ear.listener == *found);
        let mut ear = follows.unwrap_or_else(|| Ear::new(found));
        let mut kinds = Vec::new();
        ear.next_line();
        for &byte in line {
            let handed = ear.take(byte, &mut kinds);
            let Some(since) = &ear.since else {
                continue; // no 3Ah has come
            };
            let told = since.handed_out();
            match told.is_some() || handed.is_some() {
                true => self.frames.note(told == handed.as_deref()),
                false => self.none.note(true),
            }
        }
        if let Some(since) = &ear.since {
            self.records.note(since.record() == ear.listener);
        }
        self.ear = Some(ear);
        kinds
    }
}

/// Rows of what is counted, those of wrong listeners last.
fn rows() -> impl Iterator<Item = (Kind, &'static str)> {
    let wrong = wrong::all().enumerate();
    let wrong = wrong.map(|(place, &(name, _))| (Kind::Wrong(place), name));
    ROWS.into_iter().chain(wrong)
}

impl Coverage {
    pub(super) fn count_listener(&mut self, came: &Came) {
        if came.before.is_none() {
            self.listener.ear = None; // another script
        }
        if came.call == 'g' {
            self.count_served(came);
        }
        if let Some(probe) = came.listening {
            self.count_line(came, probe);
        }
    }

    fn count_line(&mut self, came: &Came, probe: &Probe) {
        let mut kinds = self.listener.hear(&probe.listener, came.input);
        for (place, (_, listener)) in wrong::all().enumerate() {
            if listener.differs(&probe.listener, came.input) {
                kinds.push(Kind::Wrong(place));
            }
        }
        for kind in kinds {
            self.add(Thing::Line(came.drawn, kind));
        }
        if let Some(frames) = alone::frames(came) {
            self.listener.frames_alone += frames.len();
            let answered = alone::answers(came, probe, &frames);
            self.listener.alone.note(answered);
        }
    }

    /// What came out otherwise than wish 1 has it, or never was put to the test.
    pub(super) fn missing_of_listener(&self) -> Vec<String> {
        let tally = &self.listener;
        let held = [
            (tally.frames, "each frame the bytes since the last 3Ah"),
            (tally.none, "no frame where these are none"),
            (tally.records, "each record as these leave it"),
            (
                tally.alone,
                "each line in noise answered as its frames alone",
            ),
        ];
        let missing = held
            .into_iter()
            .filter(|(of, _)| of.right < of.all || of.all == 0);
        missing.map(|(_, name)| name.to_string()).collect()
    }

    pub(super) fn print_listener(&self, out: &mut impl Write) -> io::Result<()> {
        writeln!(
            out,
            "\nbytes off a line by what they find and do, and lines that wrong listeners would take otherwise"
        )?;
        writeln!(out, "{:40}{:>12}{:>12}", "", "fixed", "drawn")?;
        for (kind, name) in rows() {
            let [fixed, drawn] = [false, true].map(|drawn| self.of(Thing::Line(drawn, kind)));
            writeln!(out, "{name:40}{fixed:>12}{drawn:>12}")?;
        }
        self.print_served(out)?;
        let tally = &self.listener;
        let of = |Right { right, all }| format!("{right} of {all}");
        writeln!(
            out,
            "\nframes handed out that are the bytes since the last 3Ah: {}\n\
             bytes at which these are none, and none is handed out: {}\n\
             records left as these tell: {}\n\
             lines in noise without 3Ah answered as their {} frames alone: {}",
            of(tally.frames),
            of(tally.none),
            of(tally.records),
            tally.frames_alone,
            of(tally.alone),
        )
    }
}

/// All that must not stay at 0, with a name for each.
pub(super) fn wanted() -> Vec<(Thing, String)> {
    let mut wanted = Vec::new();
    for (drawn, whose) in [(false, "fixed"), (true, "drawn")] {
        for (kind, name) in rows() {
            let name = format!("listener, {whose}: {name}");
            wanted.push((Thing::Line(drawn, kind), name));
        }
    }
    wanted.extend(served::wanted());
    wanted
}
