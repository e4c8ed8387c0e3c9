//! The differential test: seeded streams and scripts are given to the model
//! and to the programs under test, and their lines are held side by side.

mod panel;

use std::fmt::Write as _;
use std::io::{self, Read, Write};
use std::ops::Range;
use std::path::{Path, PathBuf};
use std::process::{Child, Command, Stdio};
use std::sync::mpsc;
use std::thread;
use std::time::Duration;

use crate::coverage::{Before, Came, Coverage};
use crate::desk::Desk;
use crate::probe::{serving, Probe, Record, Records, Then};
use crate::{desk, desk_streams, panel_scripts, probe_scripts};

#[cfg(test)]
pub use self::panel::panel_calls;

/// A program that takes longer than this is stopped and has failed.
const PATIENCE: Duration = Duration::from_secs(60);
/// No right output comes near this; what goes past it is not kept.
const OUTPUT_MAX: u64 = 8 << 20;
/// Failures shown in full; further ones are only counted.
const SHOWN: usize = 10;
/// Longest piece of text shown of a record or a line.
const TEXT_MAX: usize = 600;

pub struct Options {
    pub desk: PathBuf,
    pub probe: PathBuf,
    /// The panel's C program, which may be left out.
    pub panel: Option<PathBuf>,
    pub streams: usize,
    pub seed: u64,
    /// So many failures end the run.
    pub failures: usize,
    pub prefix: Vec<String>,
}

/// Tests passed and failed so far, and the report's way out.
struct Tally<W: Write> {
    passed: usize,
    failed: usize,
    out: W,
}

impl<W: Write> Tally<W> {
    fn note(&mut self, outcome: Result<(), String>) -> io::Result<()> {
        match outcome {
            Ok(()) => self.passed += 1,
            Err(fault) => {
                self.failed += 1;
                if self.failed <= SHOWN {
                    writeln!(self.out, "FAILED {fault}\n")?;
                }
            }
        }
        Ok(())
    }

    /// Prints the count; true if nothing failed.
    fn end(&mut self) -> io::Result<bool> {
        let (passed, failed) = (self.passed, self.failed);
        if failed > SHOWN {
            writeln!(self.out, "only the first {SHOWN} failures are shown")?;
        }
        writeln!(self.out, "{passed} passed, {failed} failed")?;
        Ok(failed == 0)
    }
}

/// Runs the whole test; true if nothing failed.
pub fn compare(options: &Options) -> io::Result<bool> {
    let mut coverage = Coverage::new(options.panel.is_some());
    let mut tally = Tally {
        passed: 0,
        failed: 0,
        out: io::stdout().lock(),
    };
    let mut purposeful = desk_streams::purposeful().max(probe_scripts::purposeful());
    let mut tries = vec![try_desk as Try, try_probe];
    if options.panel.is_some() {
        purposeful = purposeful.max(panel_scripts::purposeful());
        tries.extend([panel::try_own as Try, panel::try_probes]);
    }
    for number in 0..options.streams.max(purposeful) {
        for try_one in &tries {
            let Some(outcome) = try_one(options, number, &mut coverage) else {
                continue;
            };
            tally.note(outcome)?;
            if tally.failed >= options.failures {
                return tally.end();
            }
        }
    }
    coverage.close();
    coverage.print(&mut tally.out)?;
    let missing = coverage.missing();
    for thing in &missing {
        writeln!(tally.out, "never came up: {thing}")?;
    }
    tally.note(match missing.is_empty() {
        true => Ok(()),
        false => Err("coverage: see what never came up, above".to_string()),
    })?;
    tally.end()
}

/// Tries the stream or script of that number, if there is one for the program.
type Try = fn(&Options, usize, &mut Coverage) -> Option<Outcome>;

type Outcome = Result<(), String>;

fn try_desk(options: &Options, number: usize, coverage: &mut Coverage) -> Option<Outcome> {
    let seed = options.seed;
    let (name, input) = desk_streams::stream(seed, number);
    let drawn = !desk_streams::is_fixed(number);
    let expected = desk_calls(&input, drawn, |came| coverage.count(came));
    let about = |line: usize| match desk::pieces(&input).nth(line) {
        _ if input.len() > desk::INPUT_MAX => format!("input of {} bytes", input.len()),
        Some(piece) => format!("piece {}", printable(piece)),
        None => "past the last piece".to_string(),
    };
    let outcome = judge((&options.desk, &options.prefix), &input, &expected, about);
    Some(outcome.map_err(|fault| format!("desk stream {number} ({name}), seed {seed}\n{fault}")))
}

fn try_probe(options: &Options, number: usize, coverage: &mut Coverage) -> Option<Outcome> {
    let seed = options.seed;
    let (name, script) = probe_scripts::script(seed, number);
    let drawn = !probe_scripts::is_fixed(number);
    let expected = probe_calls(&script, drawn, |came| coverage.count(came));
    let about = |line| describe(&script, line);
    let outcome = judge((&options.probe, &options.prefix), &script, &expected, about);
    Some(outcome.map_err(|fault| format!("probe script {number} ({name}), seed {seed}\n{fault}")))
}

/// The desk's lines. Each piece that is served is shown as it comes up.
pub fn desk_calls(input: &[u8], drawn: bool, mut show: impl FnMut(&Came)) -> Vec<String> {
    if input.len() > desk::INPUT_MAX {
        return desk::lines(input);
    }
    let mut desk = Desk::new();
    let mut lines = Vec::new();
    let mut before: Option<Before> = None;
    for piece in desk::pieces(input) {
        let image_before = desk.image().to_vec();
        let line = desk.step(piece);
        let number = number_in(&line, 0);
        show(&Came {
            call: 'd',
            drawn,
            input: piece,
            number,
            line: &line,
            reply: line.strip_prefix("0 ").unwrap_or_default().as_bytes(),
            image_before: &image_before,
            image: desk.image(),
            second_before: &[],
            second: &[],
            room: desk.room(),
            before: before.as_ref(),
            listening: None,
        });
        before = Some(('d', number, piece.to_vec()));
        lines.push(line);
    }
    lines
}

/// The probe's lines. Each call is shown as it comes up.
pub fn probe_calls(script: &[u8], drawn: bool, show: impl FnMut(&Came)) -> Vec<String> {
    let mut showing = Showing {
        probe: Probe::new(),
        drawn,
        before: None,
        show,
    };
    let records = Records::new(script);
    records.flat_map(|record| showing.step(record)).collect()
}

/// A probe that shows its calls.
struct Showing<F> {
    probe: Probe,
    drawn: bool,
    /// The last call that was shown.
    before: Option<Before>,
    show: F,
}

impl<F: FnMut(&Came)> Showing<F> {
    fn step(&mut self, record: Record) -> Vec<String> {
        match record {
            Record::Line(then, line) => self.line(then, line),
            _ => self.call(record).into_iter().collect(),
        }
    }

    fn call(&mut self, record: Record) -> Option<String> {
        let image_before = self.probe.image().to_vec();
        let second_before = match record {
            Record::MoveUp | Record::MoveDown => self.probe.second().to_vec(),
            _ => Vec::new(),
        };
        let line = self.probe.call(record)?;
        if let Some((call, input)) = call_of(record) {
            let number = number_in(&line, 1);
            (self.show)(&Came {
                drawn: self.drawn,
                second_before: &second_before,
                before: self.before.as_ref(),
                ..came(&self.probe, (call, &input, number), &line, &image_before)
            });
            self.before = Some((call, number, input));
        }
        Some(line)
    }

    /// A line is shown behind the frames that are served off it.
    fn line(&mut self, then: Then, line: &[u8]) -> Vec<String> {
        let probe_before = self.probe.clone();
        let (drawn, before, show) = (self.drawn, &mut self.before, &mut self.show);
        let lines = self.probe.hear(then, line, |served| {
            let number = number_in(served.line, 1);
            let call = ('g', served.frame, number);
            show(&Came {
                drawn,
                before: before.as_ref(),
                ..came(served.probe, call, served.line, served.image_before)
            });
            *before = Some(('g', number, served.frame.to_vec()));
        });
        let call = (then.letter(), line, 0);
        show(&Came {
            drawn,
            before: before.as_ref(),
            listening: Some(&probe_before),
            ..came(&self.probe, call, &lines.join("\n"), probe_before.image())
        });
        *before = Some((then.letter(), 0, line.to_vec()));
        lines
    }
}

/// A call, what it is given and its number, from the probe as it is behind it.
fn came<'a>(
    probe: &'a Probe,
    (call, input, number): (char, &'a [u8], u8),
    line: &'a str,
    image_before: &'a [u8],
) -> Came<'a> {
    Came {
        call,
        drawn: false,
        input,
        number,
        line,
        reply: probe.reply(),
        image_before,
        image: probe.image(),
        second_before: &[],
        second: probe.second(),
        room: probe.output_length,
        before: None,
        listening: None,
    }
}

/// The letter of a call and what it is given.
fn call_of(record: Record) -> Option<(char, Vec<u8>)> {
    Some(match record {
        Record::Serve(switch, frame) => (serving(switch), frame.to_vec()),
        Record::TakeApart(frame) => ('T', frame.to_vec()),
        Record::Build(contents) => ('B', contents.to_vec()),
        Record::Fresh(address) => ('F', vec![address]),
        Record::Held(table) => ('H', table.to_be_bytes().to_vec()),
        Record::Quantity { table, level } => {
            ('A', [table.to_be_bytes(), level.to_be_bytes()].concat())
        }
        Record::TableFile(file) => ('C', file.to_vec()),
        Record::MoveUp => ('U', Vec::new()),
        Record::MoveDown => ('D', Vec::new()),
        _ => return None,
    })
}

/// The refusal number in a line of the model; lines without one give 0.
fn number_in(line: &str, word: usize) -> u8 {
    line.split(' ')
        .nth(word)
        .and_then(|text| text.parse().ok())
        .unwrap_or(0)
}

/// The record behind a line of the probe, with the lengths it met.
fn describe(script: &[u8], line: usize) -> String {
    let mut probe = Probe::new();
    let mut printed = 0;
    for record in Records::new(script) {
        let found = probe.clone();
        let lines = probe.step(record);
        if line < printed + lines.len() {
            return match record {
                Record::Line(then, bytes) => {
                    let part = heard(&lines, line - printed, bytes.len());
                    spell_line(&found, then, bytes, part)
                }
                _ => format!("record {} ({})", spell(record), lengths(&probe, record)),
            };
        }
        printed += lines.len();
    }
    "past the last record".to_string()
}

fn lengths(probe: &Probe, record: Record) -> String {
    match record {
        Record::MoveUp | Record::MoveDown => {
            let (image, second) = (probe.image_length, probe.second_length);
            format!("image {image}, second {second}")
        }
        Record::TableFile(file) => format!("{} bytes", file.len()),
        _ => image_and_output(probe),
    }
}

fn image_and_output(probe: &Probe) -> String {
    let (image, output) = (probe.image_length, probe.output_length);
    format!("image {image}, output {output}")
}

/// The bytes of a line that one of the lines printed for it is about: those
/// behind the frame before, up to its own frame or to the end.
fn heard(lines: &[String], at: usize, length: usize) -> Range<usize> {
    let taken = |line: &String| line.strip_prefix("G ")?.split(' ').next()?.parse().ok();
    let mut ends: Vec<usize> = lines[..=at].iter().filter_map(taken).collect();
    if at + 1 == lines.len() {
        ends.push(length);
    }
    let end = ends.pop().unwrap_or(length);
    ends.pop().unwrap_or(0)..end
}

/// Part of a line, with the record that the whole of it found.
fn spell_line(found: &Probe, then: Then, line: &[u8], part: Range<usize>) -> String {
    let (letter, text) = (then.letter(), printable(&line[part.clone()]));
    let (count, flag) = (found.listener.count, u8::from(found.listener.gathering));
    let Range { start, end } = part;
    format!(
        "record {letter} {text} (bytes {start} to {end} of {}, from count {count}, flag {flag})",
        line.len()
    )
}

fn spell(record: Record) -> String {
    match record {
        Record::Fresh(address) => format!("F {address}"),
        Record::Serve(switch, bytes) => format!("{} {}", serving(switch), printable(bytes)),
        Record::TakeApart(bytes) => format!("T {}", printable(bytes)),
        Record::Build(bytes) => format!("B {}", printable(bytes)),
        Record::Held(table) => format!("H {table}"),
        Record::Quantity { table, level } => format!("A {table} {level}"),
        Record::TableFile(file) => format!("C {}", printable(file)),
        Record::MoveUp => "U".to_string(),
        Record::MoveDown => "D".to_string(),
        _ => "that is broken".to_string(),
    }
}

/// Plain characters as they are, others and `<` in hex between angles.
fn printable(bytes: &[u8]) -> String {
    let mut text = String::new();
    for &byte in bytes.iter().take(TEXT_MAX) {
        match byte {
            b'<' | 0..=31 | 127.. => _ = write!(text, "<{byte:02X}>"),
            _ => text.push(char::from(byte)),
        }
    }
    if bytes.len() > TEXT_MAX {
        _ = write!(text, "... ({} bytes)", bytes.len());
    }
    text
}

/// Holds the output to the expected lines, line feeds included.
fn hold(expected: &[String], got: &[u8], about: impl Fn(usize) -> String) -> Result<(), String> {
    let mut lines = got.split_inclusive(|&byte| byte == b'\n');
    for index in 0.. {
        let want = expected.get(index).map(|line| format!("{line}\n"));
        let have = lines.next();
        if want.as_deref().map(str::as_bytes) != have {
            let show = |line: Option<&[u8]>| line.map_or("no line".to_string(), printable);
            return Err(format!(
                "  line     {}\n  at       {}\n  expected {}\n  got      {}",
                index + 1,
                about(index),
                show(want.as_deref().map(str::as_bytes)),
                show(have),
            ));
        }
        if have.is_none() {
            break;
        }
    }
    Ok(())
}

/// Runs a program on the input and holds its lines to the expected ones.
fn judge(
    (program, prefix): (&Path, &[String]),
    input: &[u8],
    expected: &[String],
    about: impl Fn(usize) -> String,
) -> Result<(), String> {
    let mut child = start(program, prefix).map_err(|fault| format!("  cannot start: {fault}"))?;
    let output = exchange(&mut child, input.to_vec());
    if output.is_err() {
        // It may have ended by itself in the meantime, which is as good.
        _ = child.kill();
    }
    let status = child
        .wait()
        .map_err(|fault| format!("  cannot wait: {fault}"))?;
    hold(expected, &output?, about)?;
    match status.success() {
        true => Ok(()),
        false => Err(format!("  its lines are right, but it ended with {status}")),
    }
}

fn start(program: &Path, prefix: &[String]) -> io::Result<Child> {
    let mut command = match prefix.split_first() {
        Some((first, rest)) => {
            let mut command = Command::new(first);
            command.args(rest).arg(program);
            command
        }
        None => Command::new(program),
    };
    command.stdin(Stdio::piped()).stdout(Stdio::piped()).spawn()
}

/// Writes and reads at the same time, so that neither side can block the
/// other. A program need not read its input to the end.
fn exchange(child: &mut Child, input: Vec<u8>) -> Result<Vec<u8>, String> {
    let (Some(mut stdin), Some(stdout)) = (child.stdin.take(), child.stdout.take()) else {
        return Err("  has no pipes".to_string());
    };
    thread::spawn(move || stdin.write_all(&input));
    let (sender, receiver) = mpsc::channel();
    thread::spawn(move || {
        let mut output = Vec::new();
        let read = stdout.take(OUTPUT_MAX).read_to_end(&mut output);
        // Nobody listens any more once patience has run out.
        _ = sender.send(read.map(|_| output));
    });
    match receiver.recv_timeout(PATIENCE) {
        Ok(Ok(output)) => Ok(output),
        Ok(Err(fault)) => Err(format!("  cannot read: {fault}")),
        Err(_) => Err(format!("  not done after {} seconds", PATIENCE.as_secs())),
    }
}
