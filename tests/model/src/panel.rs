//! The panel's C program, as tests/PANEL.md has it: a script of calls by a host
//! that passes plain numbers (document 02, wish 9). What it has in common with
//! the probe is the probe's. Beside that it serves with any number as the
//! switch, and asks for held parts with a table's number of 64 bits.

use crate::block::Switch;
use crate::probe::{self, Probe};

/// Letters of the records that are as the probe's.
const SHARED: &[u8] = b"LPWOFSKH";

/// One record of a script.
#[derive(Clone, Copy)]
pub enum Record<'a> {
    /// One that is as the probe's, or is broken.
    Shared(probe::Record<'a>),
    /// The switch's number, and a frame.
    Serve(u64, &'a [u8]),
    /// A table's number.
    Held(u64),
}

/// The records of a script, of which no more is read than the probe would.
pub struct Records<'a>(probe::Records<'a>);

impl<'a> Records<'a> {
    pub fn new(script: &'a [u8]) -> Self {
        Records(probe::Records::new(script))
    }

    /// The whole record, or nothing if it is unknown or cut short.
    fn record(&mut self) -> Option<Record<'a>> {
        let letter = self.0.letter()?;
        if SHARED.contains(&letter) {
            return self.0.record().map(Record::Shared);
        }
        Some(match self.0.byte()? {
            b'Z' => Record::Serve(self.0.number(8)? as u64, self.0.counted()?),
            b'J' => Record::Held(self.0.number(8)? as u64),
            _ => return None,
        })
    }
}

impl<'a> Iterator for Records<'a> {
    type Item = Record<'a>;

    fn next(&mut self) -> Option<Record<'a>> {
        self.0.letter()?;
        let record = self.record();
        if record.is_none() {
            self.0.end();
        }
        Some(record.unwrap_or(Record::Shared(probe::Record::Broken)))
    }
}

/// The image and the output, with the lengths that the calls see of them, as
/// the probe has them. The rest of the probe stays unused.
#[derive(Clone)]
pub struct Panel(Probe);

impl Panel {
    pub fn new() -> Self {
        Panel(Probe::new())
    }

    pub fn buffers(&self) -> &Probe {
        &self.0
    }

    /// Carries out a record and gives the line it prints, if it prints one.
    pub fn step(&mut self, record: Record) -> Option<String> {
        match record {
            Record::Shared(record) => self.0.call(record),
            Record::Serve(number, frame) => {
                Some(self.0.serve('Z', Switch::by_number(number), frame))
            }
            Record::Held(table) => Some(self.0.held('J', table)),
        }
    }
}

/// The panel's lines, without their line feeds.
pub fn lines(script: &[u8]) -> Vec<String> {
    let mut panel = Panel::new();
    Records::new(script)
        .filter_map(|record| panel.step(record))
        .collect()
}

/// Whether a script of the probe has only records that the panel's program
/// knows as well. One that is broken for the probe ends the panel's run too.
pub fn knows(script: &[u8]) -> bool {
    probe::Records::new(script).all(|record| {
        matches!(
            record,
            probe::Record::ImageLength(_)
                | probe::Record::Poke { .. }
                | probe::Record::Fill(_)
                | probe::Record::Output { .. }
                | probe::Record::Fresh(_)
                | probe::Record::Serve(..)
                | probe::Record::Held(_)
                | probe::Record::Broken
        )
    })
}
