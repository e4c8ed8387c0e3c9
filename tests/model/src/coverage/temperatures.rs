//! What wish 5 wants reached, by fixed calls and by drawn ones alike: error
//! tables with temperatures at the limits, and tables that a wrong rule would
//! judge otherwise.

use std::io::{self, Write};

use super::checksum::{body, bytes};
use super::{Came, Coverage, Thing};
use crate::streams::rung;

/// A temperature and its correction.
type Row = [u8; 3];

/// A kind of table: the command, its number, what the temperatures are like,
/// the calls that can have it, and whether temperatures are like that. They
/// are those written by 62 and those returned by 63.
type Kind = (u8, u8, &'static str, &'static [char], fn(&[u8]) -> bool);

const EITHER: &[char] = &['d', 'S'];

const KINDS: [Kind; 15] = [
    (62, 0, "80h alone", EITHER, |t| t == [0x80]),
    (62, 0, "7Fh then 80h", EITHER, |t| has(t, [0x7F, 0x80])),
    (62, 0, "81h first, 80h last", EITHER, |t| {
        t.starts_with(&[0x81]) && t.ends_with(&[0x80])
    }),
    (62, 0, "80h last of 21", EITHER, |t| {
        t.len() == 21 && t.ends_with(&[0x80])
    }),
    (62, 0, "81h first of 21", EITHER, |t| {
        t.len() == 21 && t.starts_with(&[0x81])
    }),
    (62, 0, "FFh then 00h", EITHER, |t| has(t, [0xFF, 0x00])),
    (62, 11, "80h then 81h", EITHER, |t| has(t, [0x80, 0x81])),
    (62, 11, "80h first", EITHER, |t| t.starts_with(&[0x80])),
    (62, 11, "80h in the middle", EITHER, |t| {
        t[1..t.len() - 1].contains(&0x80)
    }),
    (62, 11, "80h last", EITHER, |t| t.ends_with(&[0x80])),
    (62, 11, "80h then 80h", EITHER, |t| has(t, [0x80, 0x80])),
    (62, 11, "00h then FFh", EITHER, |t| has(t, [0x00, 0xFF])),
    (62, 11, "two alike", EITHER, |t| {
        t.windows(2).any(|pair| pair[0] == pair[1])
    }),
    (63, 0, "7Fh then 80h", EITHER, |t| has(t, [0x7F, 0x80])),
    // The desk program has a fresh image, into which none such is written.
    (63, 0, "80h first of several", &['S'], |t| {
        t.len() > 1 && t.starts_with(&[0x80])
    }),
];

/// A rule that is not the block's: what is wrong with it, for which tables it
/// errs (accepted ones, refused ones), and whether it takes these rows.
type Wrong = (&'static str, &'static [bool], fn(&[Row]) -> bool);

const ACCEPTED: &[bool] = &[true];
const REFUSED: &[bool] = &[false];
const BOTH: &[bool] = &[true, false];

const WRONG: [Wrong; 18] = [
    ("two's complement", BOTH, older),
    ("unsigned", BOTH, |rows| rise(rows, |row| row[0])),
    ("sign apart from the rest", BOTH, |rows| {
        rise(rows, |row| match row[0] {
            0..128 => i16::from(row[0]),
            128.. => 128 - i16::from(row[0]),
        })
    }),
    ("81h as +129", BOTH, |rows| {
        rise(rows, |row| row[0].wrapping_sub(0x82))
    }),
    ("80h as 00h", BOTH, |rows| read_as(rows, 0x80, 0x00)),
    ("80h as 7Fh", ACCEPTED, |rows| read_as(rows, 0x80, 0x7F)),
    ("FFh as 00h", ACCEPTED, |rows| read_as(rows, 0xFF, 0x00)),
    ("80h refused", ACCEPTED, |rows| {
        by_rule(rows) && rows.iter().all(|row| row[0] != 0x80)
    }),
    ("80h lowest and highest", REFUSED, |rows| {
        older(rows) || by_rule(rows)
    }),
    ("80h not judged", REFUSED, |rows| {
        let others: Vec<Row> = rows.iter().copied().filter(|row| row[0] != 0x80).collect();
        by_rule(&others)
    }),
    ("steps of 1 to 127", BOTH, |rows| {
        rows.windows(2)
            .all(|pair| (1..128).contains(&pair[1][0].wrapping_sub(pair[0][0])))
    }),
    ("alike ones taken", REFUSED, |rows| {
        rows.is_sorted_by_key(|row| rung(row[0]))
    }),
    ("corrections judged too", REFUSED, |rows| {
        rise(rows, |row| (rung(row[0]), row[1], row[2]))
    }),
    ("corrections judged instead", BOTH, |rows| {
        rise(rows, |row| (row[1], row[2]))
    }),
    ("first two alone", REFUSED, |rows| {
        by_rule(&rows[..rows.len().min(2)])
    }),
    ("first left out", REFUSED, |rows| by_rule(&rows[1..])),
    ("last left out", REFUSED, |rows| {
        by_rule(&rows[..rows.len() - 1])
    }),
    ("all held to the first", REFUSED, |rows| {
        rows[1..].iter().all(|row| rung(row[0]) > rung(rows[0][0]))
    }),
];

/// Whose calls are counted apart: a call's letter and whether it is drawn.
const WHOSE: [(char, bool, &str); 4] = [
    ('d', false, "desk, fixed"),
    ('d', true, "desk, drawn"),
    ('S', false, "serve, fixed"),
    ('S', true, "serve, drawn"),
];

fn has(temperatures: &[u8], neighbours: [u8; 2]) -> bool {
    temperatures.windows(2).any(|pair| pair == neighbours)
}

fn rise<K: PartialOrd>(rows: &[Row], key: fn(&Row) -> K) -> bool {
    rows.is_sorted_by(|earlier, later| key(earlier) < key(later))
}

fn by_rule(rows: &[Row]) -> bool {
    rise(rows, |row| rung(row[0]))
}

/// By document 01, before wish 5.
fn older(rows: &[Row]) -> bool {
    rise(rows, |row| row[0] as i8)
}

/// By the rule, but for a byte that is read as another.
fn read_as(rows: &[Row], byte: u8, other: u8) -> bool {
    let mut rows = rows.to_vec();
    for row in &mut rows {
        if row[0] == byte {
            row[0] = other;
        }
    }
    by_rule(&rows)
}

/// The command and the rows, if this is a 62 that came to the rise rule or a
/// 63 that was served.
fn rows_of(came: &Came) -> Option<(u8, Vec<Row>)> {
    if !matches!(came.number, 0 | 11) {
        return None;
    }
    let request = body(came.input);
    let command = request[1];
    let table = match (command, came.number) {
        (62, _) => request,
        (63, 0) => bytes(&came.reply[1..]),
        _ => return None,
    };
    // Address, command, number and count stand before the rows.
    let rows = table[4..table.len() - 1].chunks_exact(3);
    let rows = rows.map(|row| [row[0], row[1], row[2]]).collect();
    Some((command, rows))
}

impl Coverage {
    pub(super) fn count_temperatures(&mut self, came: &Came) {
        let Some((command, rows)) = rows_of(came) else {
            return;
        };
        let temperatures: Vec<u8> = rows.iter().map(|row| row[0]).collect();
        for (place, &(of, number, _, _, fits)) in KINDS.iter().enumerate() {
            if (of, number) == (command, came.number) && fits(&temperatures) {
                self.add(Thing::Table(came.call, came.drawn, place));
            }
        }
        if command == 62 {
            self.count_misread(came, &rows);
        }
    }

    fn count_misread(&mut self, came: &Came, rows: &[Row]) {
        let accepted = came.number == 0;
        for (place, (_, _, takes)) in WRONG.iter().enumerate() {
            if takes(rows) != accepted {
                self.add(Thing::Misread(came.call, came.drawn, place, accepted));
            }
        }
    }

    pub(super) fn print_tables(&self, out: &mut impl Write) -> io::Result<()> {
        writeln!(out, "\nby command, number and temperatures")?;
        write!(out, "{:28}", "")?;
        for (_, _, name) in WHOSE {
            write!(out, "{name:>20}")?;
        }
        writeln!(out)?;
        for (place, (command, number, kind, _, _)) in KINDS.iter().enumerate() {
            write!(out, "{:28}", format!("{command}, {number}, {kind}"))?;
            for (call, drawn, _) in WHOSE {
                write!(out, "{:>20}", self.of(Thing::Table(call, drawn, place)))?;
            }
            writeln!(out)?;
        }
        Ok(())
    }

    pub(super) fn print_misread(&self, out: &mut impl Write) -> io::Result<()> {
        writeln!(
            out,
            "\naccepted tables that a wrong rule would refuse, and refused ones that it would take"
        )?;
        write!(out, "{:28}", "")?;
        for (_, _, name) in WHOSE {
            write!(out, "{name:>20}")?;
        }
        writeln!(out)?;
        for (place, (rule, _, _)) in WRONG.iter().enumerate() {
            write!(out, "{rule:28}")?;
            for (call, drawn, _) in WHOSE {
                let [refused, taken] = [true, false]
                    .map(|accepted| self.of(Thing::Misread(call, drawn, place, accepted)));
                write!(out, "{refused:>11} {taken:>8}")?;
            }
            writeln!(out)?;
        }
        Ok(())
    }
}

/// All that must not stay at 0, with a name for each.
pub(super) fn wanted() -> Vec<(Thing, String)> {
    let mut wanted = Vec::new();
    for (call, drawn, name) in WHOSE {
        for (place, (command, number, kind, calls, _)) in KINDS.iter().enumerate() {
            if calls.contains(&call) {
                let name = format!("{name}: command {command}, number {number}, {kind}");
                wanted.push((Thing::Table(call, drawn, place), name));
            }
        }
        for (place, (rule, errs, _)) in WRONG.iter().enumerate() {
            for &accepted in *errs {
                let outcome = if accepted { "accepted" } else { "refused" };
                let name = format!("{name}: {outcome}, and not so with {rule}");
                wanted.push((Thing::Misread(call, drawn, place, accepted), name));
            }
        }
    }
    wanted
}
