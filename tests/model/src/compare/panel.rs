//! The panel's C program, tried on scripts of its own and on those of the probe
//! that have only records which it knows as well.

use super::{call_of, image_and_output, judge, number_in, printable, spell, Options, Outcome};
use crate::coverage::panel::{Asked, Call};
use crate::coverage::Coverage;
use crate::panel::{self, Panel, Record, Records};
use crate::probe::{self, serving};
use crate::{panel_scripts, probe_scripts};

/// Of the scripts that are drawn by chance, one in so many is run: the probe's
/// come here too, and the gate has to stay quick.
const ONE_IN: usize = 3;

/// The panel's own script of that number, if it is run.
pub fn try_own(options: &Options, number: usize, coverage: &mut Coverage) -> Option<Outcome> {
    if number >= panel_scripts::purposeful() && number % ONE_IN != 0 {
        return None;
    }
    let seed = options.seed;
    let (name, script) = panel_scripts::script(seed, number);
    let about = format!("panel script {number} ({name}), seed {seed}");
    try_script(
        options,
        (&about, &script),
        !panel_scripts::is_fixed(number),
        coverage,
    )
}

/// The probe's script of that number, if the panel's program can run it.
pub fn try_probes(options: &Options, number: usize, coverage: &mut Coverage) -> Option<Outcome> {
    let seed = options.seed;
    let (name, script) = probe_scripts::script(seed, number);
    if !panel::knows(&script) {
        return None;
    }
    let about = format!("panel, probe script {number} ({name}), seed {seed}");
    try_script(
        options,
        (&about, &script),
        !probe_scripts::is_fixed(number),
        coverage,
    )
}

fn try_script(
    options: &Options,
    (name, script): (&str, &[u8]),
    drawn: bool,
    coverage: &mut Coverage,
) -> Option<Outcome> {
    let program = options.panel.as_deref()?;
    coverage.count_panel_script();
    let expected = panel_calls(script, drawn, |call| coverage.count_panel(call));
    let about = |line| describe(script, line);
    let outcome = judge((program, &options.prefix), script, &expected, about);
    Some(outcome.map_err(|fault| format!("{name}\n{fault}")))
}

/// The panel's lines. Each call is shown as it comes up.
pub fn panel_calls(script: &[u8], drawn: bool, mut show: impl FnMut(&Call)) -> Vec<String> {
    let mut panel = Panel::new();
    let mut lines = Vec::new();
    for record in Records::new(script) {
        let image_before = panel.buffers().image().to_vec();
        let Some(line) = panel.step(record) else {
            continue;
        };
        if let Some((letter, input, asked)) = asked(record) {
            show(&Call {
                letter,
                drawn,
                input: &input,
                asked,
                number: number_in(&line, 1),
                line: &line,
                image_before: &image_before,
                image: panel.buffers().image(),
                room: panel.buffers().output_length,
            });
        }
        lines.push(line);
    }
    lines
}

/// The letter of a call, what it is given, and how that is meant.
fn asked(record: Record) -> Option<(char, Vec<u8>, Asked)> {
    Some(match record {
        Record::Serve(number, frame) => {
            let input = [&number.to_be_bytes(), frame].concat();
            ('Z', input, Asked::Serve(number, frame))
        }
        Record::Held(table) => ('J', table.to_be_bytes().to_vec(), Asked::Held(table)),
        Record::Shared(record) => {
            let (letter, input) = call_of(record)?;
            let asked = match record {
                probe::Record::Serve(switch, frame) => {
                    Asked::Serve(u64::from(serving(switch) == 'K'), frame)
                }
                probe::Record::Held(table) => Asked::Held(table.into()),
                _ => Asked::Fresh,
            };
            (letter, input, asked)
        }
    })
}

/// The record behind a line of the panel's program, with the lengths it met.
fn describe(script: &[u8], line: usize) -> String {
    let mut panel = Panel::new();
    let mut printed = 0;
    for record in Records::new(script) {
        if panel.step(record).is_none() {
            continue;
        }
        if printed == line {
            return spell_record(&panel, record);
        }
        printed += 1;
    }
    "past the last record".to_string()
}

fn spell_record(panel: &Panel, record: Record) -> String {
    let text = match record {
        Record::Shared(record) => spell(record),
        Record::Serve(number, frame) => format!("Z {number} {}", printable(frame)),
        Record::Held(table) => format!("J {table}"),
    };
    format!("record {text} ({})", image_and_output(panel.buffers()))
}
