//! Fixed calls of document 02, wish 9, as the panel's C program makes them. The
//! host passes plain numbers: the switch has 64 bits, of which 0 is unsealed
//! and anything else sealed, and so has a table's number. None of these bits is
//! dropped. What is answered is document 01's, and of a refused call every lent
//! number becomes 0.

mod held;

use std::sync::LazyLock;

use super::sealed::{self, other_writes, reads, writes};
use super::{fresh, Change, Session, Step, FIRST_ERRORS, FIRST_TABLE, SERVE_ROOM};
use crate::block::IMAGE_BYTES;
use crate::streams::ask;

/// Numbers that seal. Four of them would be 0 if they were cut to 8, 16, 32 and
/// 63 bits.
const SEALING: [u64; 10] = [1, 2, 255, 256, 65_536, 1 << 32, 1 << 63, u64::MAX, 128, 257];

const ADDRESS: usize = 5;
const MASK: usize = 6;
const MODE: usize = 7;
const FIRST_ERRORS_SIGNATURE: usize = 23_801;

/// All sessions of the panel's own, which are made once. Faults are planted in
/// the first of them, so that they are found soon.
pub fn sessions() -> &'static [Session] {
    static SESSIONS: LazyLock<Vec<Session>> = LazyLock::new(all_sessions);
    &SESSIONS
}

fn all_sessions() -> Vec<Session> {
    let mut sessions = vec![
        Session::new("the paper's rows by number 0", papers_rows()),
        Session::new("switch numbers", switch_numbers()),
        held::some_parts(),
        Session::new("table numbers, spoiled images", held::spoiled()),
        Session::new("table numbers, fresh image", held::none_held()),
        Session::new("table numbers, all parts of a table", held::all_parts()),
        Session::new("table numbers, no output", held::none_held()).output(0),
        Session::new("table numbers, every bit", held::every_bit()),
        Session::new("every number", every_number()),
        Session::new("switch numbers, every bit", every_bit()),
        Session::new("output of 268", short_output()).output(SERVE_ROOM - 1),
        Session::new("no output", short_output()).output(0),
        Session::new("output of 269", enough_output()),
        Session::new("output of 400", enough_output()).output(400),
        Session::new("image lengths", image_lengths()),
        Session::new("frames of no byte", no_byte()),
        Session::new("no byte, short output", no_byte_refused(2)).output(SERVE_ROOM - 1),
        Session::new("no byte, no image", no_byte_refused(1)).image_length(0),
    ];
    sessions.extend(sealed::sessions().into_iter().map(by_numbers));
    sessions
}

/// A call that serves a frame with this number as the switch.
fn by_frame(rule: &'static str, number: u64, frame: &[u8]) -> Step {
    Step::new(rule, 'Z', &[&number.to_be_bytes(), frame].concat())
}

/// The frame is given without its last two bytes.
fn by(rule: &'static str, number: u64, text: &str) -> Step {
    by_frame(rule, number, format!("{text}\r\n").as_bytes())
}

/// What the probe's fixed calls show of a sealed block, by numbers: unsealed is
/// 0, and sealed each of `SEALING` in turn.
fn by_numbers(mut session: Session) -> Session {
    let mut sealing = SEALING.into_iter().cycle();
    for step in &mut session.steps {
        let number = match step.letter {
            'S' => Some(0),
            'K' => sealing.next(),
            _ => None,
        };
        if let Some(number) = number {
            step.letter = 'Z';
            step.input.splice(0..0, number.to_be_bytes());
        }
    }
    session
}

/// P1 to P12 of document 01, P4 as document 02's wish 2 has it, and the rows
/// behind them.
fn papers_rows() -> Vec<Step> {
    let row = |rule, text| by(rule, 0, text);
    let again = |address| fresh("a fresh image", address);
    let errors = [0x01, 0x14, 0x00, 0x05];
    let channel_7 = format!(":013607{}C2", "00".repeat(83));
    vec![
        row("P1", ":0132CD").replies(":013200CD"),
        row("P2", ":01330FBD")
            .replies(":01330FBD")
            .stores(MASK, &[0x0F]),
        again(1).stores(MASK, &[0]),
        row("P3", ":0132CE").refused(6),
        row("P4", ":0132cD").replies(":013200CD"),
        row("P5", ":0232CC").refused(7),
        row("P6", ":0153AC").refused(8),
        row("P7", ":013608C1").refused(10),
        row("P8", ":013C0901B9").refused(10),
        row("P9", ":013D01C1").replies(":013D010000C1"),
        row("P10", ":013E0101140005A6")
            .replies(":013E01C0")
            .stores(FIRST_ERRORS, &errors)
            .signs(62, 1, &errors),
        row("P11", ":013F01BF").replies(":013F0101140005A5"),
        row("P12", ":014001BE").replies(":014001001AA4"),
        again(1)
            .stores(FIRST_ERRORS, &[0; 4])
            .stores(FIRST_ERRORS_SIGNATURE, &[0; 2]),
        row("mode FFh", ":014CFFB4")
            .replies(":014CFFB4")
            .stores(MODE, &[0xFF]),
        row("mode 1", ":014C01B2").refused(11),
        row("channel 7", ":013607C2").replies(&channel_7),
        row("part 12", ":013C0B0CAC").refused(10),
        row("00h then FFh", ":013E0102000001FF0002BC").refused(11),
        row("14h then 14h", ":013E010214000114000293").refused(11),
        row("FFh then 00h", ":013E0102FF0001000002BC")
            .replies(":013E01C0")
            .stores(FIRST_ERRORS, &[0x02, 0xFF, 0x00, 0x01, 0x00, 0x00, 0x02])
            .stores(FIRST_ERRORS_SIGNATURE, &[0x01, 0x04]),
        again(0xCE)
            .stores(ADDRESS, &[0xCE])
            .stores(MODE, &[0])
            .stores(FIRST_ERRORS, &[0; 7])
            .stores(FIRST_ERRORS_SIGNATURE, &[0; 2]),
        row("address CEh", ":CE3200").replies(":CE320000"),
    ]
}

/// On a fresh image, on which a number that is cut short would let a write
/// through; then, with 0, what each of the writes does; then on what they left.
fn switch_numbers() -> Vec<Step> {
    let (writes, reads) = (writes(), reads());
    let mut steps = Vec::new();
    for number in SEALING {
        for write in &writes {
            steps.push(by("a write", number, &write.text).refused(16));
        }
        for (text, fresh, _) in &reads {
            steps.push(by("nothing written", number, text).replies(fresh));
        }
    }
    for write in &writes {
        let mut written = by("written", 0, &write.text).replies(write.reply);
        written.stored = write.stored.clone();
        steps.push(written);
    }
    for (text, _, stored) in &reads {
        steps.push(by("as written", 0, text).replies(stored));
    }
    for number in SEALING {
        for text in other_writes() {
            steps.push(by("another value", number, &text).refused(16));
        }
        for (text, _, stored) in &reads {
            steps.push(by("as written", number, text).replies(stored));
        }
    }
    steps
}

/// Each bit alone seals, and so do all but that bit. Of the writes a mask is the
/// shortest, and the others take turns.
fn every_bit() -> Vec<Step> {
    let (writes, reads) = (writes(), reads());
    let mut steps = Vec::new();
    for bit in 0..64 {
        let write = &writes[bit % writes.len()];
        let (text, fresh, _) = &reads[bit % reads.len()];
        for number in [1 << bit, !(1 << bit)] {
            steps.push(by("a mask", number, ":01330FBD").refused(16));
            steps.push(by("a write", number, &write.text).refused(16));
            steps.push(by("a read", number, text).replies(fresh));
        }
    }
    steps
}

/// Frames without their last two bytes, with the numbers that they have
/// unsealed and sealed on a fresh image of address 1.
const FAULTS: [(&str, u8, u8); 14] = [
    (":0132C", 3, 3),
    (":", 3, 3),
    (";0132CD", 4, 4),
    (":0132gD", 5, 5),
    (":0132CE", 6, 6),
    (":01330FBE", 6, 6),
    (":0232CC", 7, 7),
    (":02330FBC", 7, 7),
    (":0153AC", 8, 8),
    (":013200CD", 9, 9),
    (":01330F0FAE", 9, 16),
    (":013608C1", 10, 10),
    (":013E09011400059E", 10, 16),
    (":014C01B2", 11, 16),
];

/// 2 is with the outputs that are too short.
fn every_number() -> Vec<Step> {
    let address = |byte| Change::Bytes(ADDRESS, vec![byte]);
    let mut steps = Vec::new();
    for number in [0].into_iter().chain(SEALING) {
        let refused = by("1", number, ":0132CD").after(&[address(0)]);
        steps.push(refused.refused(1));
        steps.push(by("1, a write", number, ":01330FBD").refused(1));
        let served = by("0", number, ":0132CD").after(&[address(1)]);
        steps.push(served.replies(":013200CD"));
        for (text, unsealed, sealed) in FAULTS {
            let outcome = if number == 0 { unsealed } else { sealed };
            steps.push(by("3 to 11 and 16", number, text).refused(outcome));
        }
        if number != 0 {
            steps.push(by("16 alone", number, ":01330FBD").refused(16));
        }
    }
    steps
}

fn short_output() -> Vec<Step> {
    let mut steps = Vec::new();
    for number in [0].into_iter().chain(SEALING) {
        for text in [":0132CD", ":01330FBD", ":0132CE", ":0153AC", ":0132C"] {
            steps.push(by("2", number, text).refused(2));
        }
    }
    steps.push(
        by("1 before 2", 0, ":0132CD")
            .after_change(ADDRESS, &[0])
            .refused(1),
    );
    steps
}

/// A reply of 269 bytes is the longest; it leaves no room in 269, and in more it
/// leaves the rest as it was.
fn enough_output() -> Vec<Step> {
    let rows = [0xC3; 128];
    let longest = ask(1, 60, &[&[18, 11], &rows[..]].concat());
    let mut steps = vec![
        by("the shortest", 0, ":0132CD").replies(":013200CD"),
        by_frame("written", 0, &ask(1, 59, &[&[18, 11], &rows[..]].concat()))
            .writes(&ask(1, 59, &[18, 11]))
            .stores(FIRST_TABLE + 15 * 1408 + 1280, &rows)
            .stores(17 + 2 * 15, &[0x04, 0x00])
            .signs(59, 18, &rows),
    ];
    for number in [0].into_iter().chain(SEALING) {
        let asked = by_frame("the longest", number, &ask(1, 60, &[18, 11]));
        steps.push(asked.writes(&longest));
        steps.push(by("refused", number, ":0132CE").refused(6));
    }
    steps
}

/// A good image that is cut short or goes on too long. What is written in
/// between stays.
fn image_lengths() -> Vec<Step> {
    let mut steps = Vec::new();
    for length in [0, 5, 6, 23_753, 23_816, 23_818, 24_000] {
        for number in [0].into_iter().chain(SEALING) {
            let call = by("1", number, ":01330FBD").after(&[Change::Length(length)]);
            steps.push(call.refused(1));
        }
        for table in [1, 0, 258, u64::MAX] {
            steps.push(held::held("1, whatever the table", table).refused(1));
        }
        let written = by("the right length", 0, ":01330FBD")
            .after(&[Change::Length(IMAGE_BYTES)])
            .replies(":01330FBD")
            .stores(MASK, &[0x0F]);
        steps.push(written);
        steps.push(held::held("the right length", 1).holds(0, 1));
        steps.push(held::held("no such table", 258).refused(10));
    }
    steps
}

fn no_byte() -> Vec<Step> {
    let numbers = [0].into_iter().chain(SEALING);
    let mut steps: Vec<Step> = numbers
        .map(|number| by_frame("3", number, b"").refused(3))
        .collect();
    steps.push(by("0 behind it", 0, ":0132CD").replies(":013200CD"));
    steps
}

fn no_byte_refused(number: u8) -> Vec<Step> {
    let numbers = [0].into_iter().chain(SEALING);
    numbers
        .map(|switch| by_frame("before 3", switch, b"").refused(number))
        .collect()
}
