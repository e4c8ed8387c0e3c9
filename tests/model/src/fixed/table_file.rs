//! Fixed calls of document 02, wish 10: table files. Refused are, in this order
//! and each for the whole file, 17 what is not eleven good frames when it is cut
//! after each 0Ah, or is longer than 4,096 bytes; 18 a command other than 59, a
//! body not of 133 bytes, an address or a table that is not the same throughout,
//! address 0 and a table that is none; 19 a part outside 1..11 or one there
//! twice; 20 rows that do not climb up to some row and then repeat it. Eleven
//! frames have 2,959 bytes at the most, so a file of 4,096 bytes is refused 17
//! for its pieces, and one of 4,097 would be for these alone.

mod frames;
mod rows;
mod writes;

use super::quantity::Writer;
use super::{fresh, serve, Session, Step};
use crate::streams::ask;
use crate::tables::{part, Row, ROWS};

/// So many bytes of files fit in a script, with what stands before each.
const ROOM: usize = 65_000;

pub fn sessions() -> Vec<Session> {
    let mut sessions = Vec::new();
    for (name, steps) in [
        ("table file, accepted", rows::accepted()),
        ("table file, rows at the limits", rows::limits()),
        ("table file, rows that do not climb", rows::refused()),
        ("table file, rows behind row n", rows::behind()),
        (
            "table file, commands, lengths, addresses and tables",
            writes::writes(),
        ),
        ("table file, parts", writes::parts()),
        ("table file, frames", frames::frames()),
        ("table file, pieces", frames::pieces()),
        ("table file, two things wrong", writes::pairs()),
    ] {
        sessions.extend(
            in_scripts(steps)
                .into_iter()
                .map(|some| Session::new(name, some)),
        );
    }
    sessions.push(Session::new("table file, sent", sent()));
    sessions
}

/// Steps in turn, as many as fit in a script.
fn in_scripts(steps: Vec<Step>) -> Vec<Vec<Step>> {
    let (mut scripts, mut room) = (Vec::new(), 0);
    for step in steps {
        let bytes = step.input.len() + 10;
        if room < bytes {
            scripts.push(Vec::new());
            room = ROOM;
        }
        room -= bytes;
        if let Some(script) = scripts.last_mut() {
            script.push(step);
        }
    }
    scripts
}

fn checked(rule: &'static str, file: &[u8]) -> Step {
    Step::new(rule, 'C', file)
}

/// Row 1 has level 100 and volume 150, row 2 level 200 and volume 300, and so on
/// up to level 35,200 and volume 52,800.
fn even() -> Vec<Row> {
    (1..=352)
        .map(|row| Row::new(100 * row, 150 * row))
        .collect()
}

/// The frames of a table, from part 1 to part 11.
fn frames_of(address: u8, table: u8, rows: &[Row]) -> Vec<Vec<u8>> {
    let write = |number| ask(address, 59, &part(table, rows, number));
    (1..=11).map(write).collect()
}

/// Those of the even table, number 5, to address 1.
fn even_frames() -> Vec<Vec<u8>> {
    frames_of(1, 5, &even())
}

/// The contents of a frame of the even table, from its address to its last row.
fn even_contents(place: usize) -> Vec<u8> {
    let number = place as u8 + 1;
    [vec![1, 59], part(5, &even(), number)].concat()
}

/// A file of the even table with one frame that is another.
fn with_frame(rule: &'static str, place: usize, frame: &[u8]) -> Step {
    let mut frames = even_frames();
    frames[place] = frame.to_vec();
    checked(rule, &frames.concat())
}

/// The first frame, one between, and the last.
const PLACES: [usize; 3] = [0, 5, 10];

/// An accepted file of table 5, which repeats row 200, is sent from both ends to
/// the middle, with other files between. Level 150 is halfway from row 1 to row 2.
fn sent() -> Vec<Step> {
    let mut rows = even();
    let row = rows[199];
    rows[200..].fill(row);
    let frames = frames_of(1, 5, &rows);
    let mut steps = vec![checked("an accepted file", &frames.concat())];
    steps.push(fresh("a fresh image of its address", 1));
    let mut writer = Writer::new(5);
    for number in [11, 1, 10, 2, 9, 3, 8, 4, 7, 5, 6] {
        steps.push(writer.write(number, &rows));
        let frame = &frames[usize::from(number) - 1];
        steps.push(checked("one frame of it", frame).refused(17));
    }
    let held = Step::new("all parts", 'H', &5u32.to_be_bytes()).holds(11, 0);
    steps.push(held);
    steps.push(checked("the same file once more", &frames.concat()));
    steps.push(serve("the image stays", b":0132CD\r\n").replies(":013200CD"));
    for (level, outcome) in [
        (99, Err(14)),
        (100, Ok(150)),
        (150, Ok(225)),
        (199, Ok(298)),
        (200, Ok(300)),
        (19_999, Ok(29_998)),
        (20_000, Ok(30_000)),
        (20_001, Err(14)),
        (65_535, Err(14)),
    ] {
        let input = [5u32.to_be_bytes(), u32::to_be_bytes(level)].concat();
        let step = Step::new("a level", 'A', &input);
        steps.push(match outcome {
            Ok(volume) => step.answers(volume),
            Err(number) => step.refused(number),
        });
    }
    steps
}

/// Rows up to this one, and then it again.
fn repeating(mut rows: Vec<Row>, last: usize) -> Vec<Row> {
    let row = rows[last - 1];
    rows[last..ROWS].fill(row);
    rows
}
