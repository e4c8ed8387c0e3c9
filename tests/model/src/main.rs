//! Independent model of the block, and the differential test that holds
//! other programs to it.
//!
//!     model desk  < frames    the desk program's lines
//!     model probe < script    the probe program's lines
//!     model panel < script    the lines of the panel's C program
//!     model compare --desk PATH --probe PATH [--panel PATH]
//!         [--streams N] [--seed S] [--failures M] [-- PREFIX...]
//!
//! The words of PREFIX are put before each program's path, for what plants
//! faults in the lines that it prints.
//! Some hundred streams and scripts have a purpose of their own and come first;
//! a smaller N leaves none of them out. The run ends early after M failures.

mod block;
mod cells;
mod compare;
mod coverage;
mod desk;
mod desk_streams;
mod digits;
mod fixed;
mod items;
mod lines;
mod listener;
mod order;
mod panel;
mod panel_scripts;
mod probe;
mod probe_scripts;
mod quantity;
#[cfg(test)]
mod rows;
mod streams;
mod table_file;
mod table_files;
mod tables;

use std::env;
use std::io::{self, Read, Write};
use std::path::PathBuf;
use std::process::ExitCode;

const USAGE: &str =
    "usage: model desk | model probe | model panel | model compare --desk PATH --probe PATH \
    [--panel PATH] [--streams N] [--seed S] [--failures M] [-- PREFIX...]";

fn main() -> ExitCode {
    let mut words = env::args().skip(1);
    let outcome = match words.next().as_deref() {
        // One byte past the limit tells that the input is too long.
        Some("desk") => pass(desk::INPUT_MAX + 1, desk::lines),
        Some("probe") => pass(probe::SCRIPT_MAX, probe::lines),
        Some("panel") => pass(probe::SCRIPT_MAX, panel::lines),
        Some("compare") => match options(words) {
            Ok(options) => compare::compare(&options),
            Err(fault) => return usage(&fault),
        },
        _ => return usage("what to do is not said"),
    };
    match outcome {
        Ok(true) => ExitCode::SUCCESS,
        Ok(false) => ExitCode::FAILURE,
        Err(fault) => {
            eprintln!("model: {fault}");
            ExitCode::FAILURE
        }
    }
}

fn usage(fault: &str) -> ExitCode {
    eprintln!("model: {fault}\n{USAGE}");
    ExitCode::from(2)
}

/// Reads up to `limit` bytes, prints the lines made of them.
fn pass(limit: usize, lines: fn(&[u8]) -> Vec<String>) -> io::Result<bool> {
    let mut input = Vec::new();
    io::stdin().take(limit as u64).read_to_end(&mut input)?;
    let mut text = String::new();
    for line in lines(&input) {
        text.push_str(&line);
        text.push('\n');
    }
    io::stdout().write_all(text.as_bytes())?;
    Ok(true)
}

fn options(mut words: impl Iterator<Item = String>) -> Result<compare::Options, String> {
    let (mut desk, mut probe, mut panel) = (None, None, None);
    let (mut streams, mut seed, mut failures) = (508, 2012, usize::MAX);
    let mut prefix = Vec::new();
    while let Some(word) = words.next() {
        if word == "--" {
            prefix = words.collect();
            break;
        }
        let value = words.next().ok_or(format!("{word} has no value"))?;
        let not_a_number = || format!("{word} {value} is no number");
        match word.as_str() {
            "--desk" => desk = Some(PathBuf::from(value)),
            "--probe" => probe = Some(PathBuf::from(value)),
            "--panel" => panel = Some(PathBuf::from(value)),
            "--streams" => streams = value.parse().map_err(|_| not_a_number())?,
            "--seed" => seed = value.parse().map_err(|_| not_a_number())?,
            "--failures" => failures = value.parse().map_err(|_| not_a_number())?,
            _ => return Err(format!("{word} is not known")),
        }
    }
    Ok(compare::Options {
        desk: desk.ok_or("--desk is missing")?,
        probe: probe.ok_or("--probe is missing")?,
        panel,
        streams,
        seed,
        failures,
        prefix,
    })
}
