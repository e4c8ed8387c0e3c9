//! Scripts for the panel's C program, of records that tests/PANEL.md has: first
//! the fixed calls, then drawn ones with a purpose of their own, then broken
//! records, then calls by chance. Scripts of the probe are tried on it besides.

use crate::fixed::panel::sessions;
use crate::probe::SCRIPT_MAX;
use crate::probe_scripts::{
    change_behind, fixed_calls, look_everywhere, old_bytes, poke_unjudged, Case, Script, ERRORS,
    IMAGE_BYTES, WORDS,
};
use crate::streams::{
    ask, either_case, faulty_data, faulty_frames, good_data, in_either_case, part, piece, session,
    with_other_sums, Rng, COMMANDS, WRITING,
};

const CASES: [Case; 10] = [
    ("switch numbers of every kind", switches_of_every_kind),
    ("switch numbers, every fault", switches_and_faults),
    ("switch numbers, letters and checksums", switches_and_texts),
    ("switch numbers, a look everywhere", switches_and_looks),
    ("table numbers of every kind", tables_of_every_kind),
    ("table numbers, every word", every_word),
    ("lengths of image and output", lengths),
    ("65,536 bytes up to a frame's end", |_| filled(SCRIPT_MAX)),
    ("a frame past 65,536 bytes", |_| filled(SCRIPT_MAX + 1)),
    ("records after 65,536 bytes", records_past_end),
];

impl Script {
    /// Serves a frame with this number as the switch.
    pub fn serve_by(&mut self, number: u64, frame: &[u8]) -> &mut Self {
        self.given(b'Z', &number.to_be_bytes()).length_and(frame)
    }

    /// Asks which parts of a table are held, by a number of 64 bits.
    pub fn held_wide(&mut self, table: u64) -> &mut Self {
        self.given(b'J', &table.to_be_bytes())
    }
}

/// How many scripts have a purpose of their own.
pub fn purposeful() -> usize {
    sessions().len() + CASES.len() + BROKEN
}

/// Whether the script of that number is one of fixed calls.
pub fn is_fixed(number: usize) -> bool {
    number < sessions().len()
}

/// A script and what it is for.
pub fn script(seed: u64, number: usize) -> (String, Vec<u8>) {
    // Kept apart from the streams and the probe's scripts of the same seed.
    let mut rng = Rng::new(seed, 2 << 32 | number as u64);
    if let Some(session) = sessions().get(number) {
        return (session.name.to_string(), fixed_calls(session));
    }
    let number = number - sessions().len();
    if let Some((name, make)) = CASES.get(number) {
        return (name.to_string(), make(&mut rng).0);
    }
    match broken(number - CASES.len()) {
        Some(script) => ("broken record".to_string(), script.0),
        None => ("calls by chance".to_string(), by_chance(&mut rng).0),
    }
}

/// Numbers that seal, a kind each. Those of four kinds are 0 when they are cut to
/// 8, 16, 32 and 63 bits.
const SEALING: [fn(&mut Rng) -> u64; 10] = [
    |_| 1,
    |_| 2,
    |rng| u64::from(rng.between(3, 254)),
    |_| 255,
    |rng| u64::from(rng.between(1, 255)) << 8,
    |rng| (1 + rng.below(65_535) as u64) << 16,
    |rng| (1 + rng.below((1 << 31) - 1) as u64) << 32,
    |_| 1 << 63,
    |_| u64::MAX,
    |rng| any_wide(rng) | 257,
];

fn any_wide(rng: &mut Rng) -> u64 {
    rng.bytes(8)
        .iter()
        .fold(0, |number, &byte| number << 8 | u64::from(byte))
}

fn sealing(rng: &mut Rng) -> u64 {
    rng.pick(&SEALING)(rng)
}

/// Numbers of tables and of none, a kind each: up to a byte, and then with more
/// bits before that.
const TABLES: [fn(&mut Rng) -> u64; 8] = [
    |rng| rng.below(22) as u64,
    |rng| u64::from(rng.between(1, 8)) + rng.pick(&[0, 10]),
    |rng| u64::from(rng.byte()),
    |rng| a_table(rng) | u64::from(rng.between(1, 255)) << 8,
    |rng| a_table(rng) | u64::from(rng.between(1, 255)) << rng.pick(&[16, 24]),
    |rng| a_table(rng) | 1 << rng.pick(&[32, 33, 40, 48, 63]),
    |rng| a_table(rng) | any_wide(rng) << 8 | 1 << 32,
    |rng| rng.pick(&[u64::MAX, u64::MAX - 1, 1 << 63, 1 << 32, 65_536, 256]),
];

fn a_table(rng: &mut Rng) -> u64 {
    u64::from(rng.between(1, 8)) + rng.pick(&[0, 10])
}

fn ask_held<'a>(script: &'a mut Script, rng: &mut Rng) -> &'a mut Script {
    let table = rng.pick(&TABLES)(rng);
    match rng.percent(25) {
        true => script.held(table as u32),
        false => script.held_wide(table),
    }
}

/// A frame served with a number that seals, and then with 0, each with an output
/// of its own.
fn both_ways(script: &mut Script, rng: &mut Rng, number: u64, frame: &[u8]) {
    let frame = either_case(rng, frame.to_vec());
    script.output(269, rng.byte()).serve_by(number, &frame);
    script.output(269, rng.byte()).serve_by(0, &frame);
}

/// Each kind of number that seals with a good frame of each command.
fn switches_of_every_kind(rng: &mut Rng) -> Script {
    let mut script = Script::default();
    script.fresh(1);
    old_bytes(&mut script, rng);
    for kind in SEALING {
        for command in COMMANDS {
            let number = kind(rng);
            let good = ask(1, command, &good_data(rng, command));
            both_ways(&mut script, rng, number, &good);
        }
    }
    script.show_all();
    script
}

/// Document 02, wish 11 by numbers: a good frame of each command and each fault
/// that a call can have; the longest draw stays below 65,536 bytes.
fn switches_and_faults(rng: &mut Rng) -> Script {
    let mut script = Script::default();
    let address = rng.pick(&[1, 0xCE, 0x80]);
    script.fresh(address);
    old_bytes(&mut script, rng);
    for command in COMMANDS.into_iter().chain([0, 49, 52, 65, 79, 178, 255]) {
        let good = ask(address, command, &good_data(rng, command));
        let mut frames = vec![
            good.clone(),
            ask(!address, command, &good_data(rng, command)),
        ];
        for data in faulty_data(rng, command) {
            frames.push(ask(address, command, &data));
        }
        frames.extend(faulty_frames(rng, &good));
        for frame in &frames {
            let number = sealing(rng);
            both_ways(&mut script, rng, number, frame);
        }
        for number in [0, sealing(rng)] {
            script.output(rng.pick(&[0, 132, 268]), rng.byte());
            script.serve_by(number, &good).output(269, rng.byte());
            script.poke(5, 0).serve_by(number, &good).poke(5, address);
        }
    }
    script.show_all();
    script
}

/// Letters in either case and other checksums, as wishes 2 and 4 have them; the
/// longest draw stays below 65,536 bytes.
fn switches_and_texts(rng: &mut Rng) -> Script {
    let mut script = Script::default();
    for address in [0xCE, 0xAB] {
        script.fresh(address);
        for command in COMMANDS {
            let texts = in_either_case(rng, address, command);
            let sums = with_other_sums(rng, address, command);
            for frame in texts.iter().chain(&sums) {
                let number = sealing(rng) * rng.below(2) as u64;
                script.output(269, rng.byte()).serve_by(number, frame);
            }
            // So that later ones meet another image.
            let good = good_data(rng, command);
            script.serve_by(0, &ask(address, command, &good));
        }
    }
    script.show_all();
    script
}

/// Everything that is stored is read with a number that seals, stays through
/// writes with such numbers, and is read with 0.
fn switches_and_looks(rng: &mut Rng) -> Script {
    let mut script = Script::default();
    script.fresh(1);
    poke_unjudged(&mut script, rng);
    look_everywhere(&mut script, |script, frame| script.serve_by(1 << 32, frame));
    for command in WRITING.repeat(5) {
        let number = sealing(rng);
        script.serve_by(number, &ask(1, command, &good_data(rng, command)));
    }
    look_everywhere(&mut script, |script, frame| script.serve_by(0, frame));
    script.show_all();
    script
}

/// Each kind of table number on an image with parts, on a fresh one, and on one
/// that is not usable.
fn tables_of_every_kind(rng: &mut Rng) -> Script {
    let mut script = Script::default();
    script.fresh(1);
    for table in 0..16 {
        let any = rng.below(2048) as u16;
        let held = rng.pick(&[0x000, 0x001, 0x3FF, 0x7FE, 0x7FF, any, any]);
        script.poke_all(WORDS + 2 * table, &held.to_be_bytes());
    }
    ask_all_kinds(&mut script, rng);
    script.poke(5, 0);
    ask_all_kinds(&mut script, rng);
    script.fresh(1);
    ask_all_kinds(&mut script, rng);
    for number in 1..=11 {
        let frame = ask(1, 59, &part(rng, 12, number));
        script.serve_by(1 << 32, &frame).held_wide(12);
        script.serve_by(0, &frame).held_wide(12).held_wide(2);
    }
    ask_all_kinds(&mut script, rng);
    script.show_all();
    script
}

fn ask_all_kinds(script: &mut Script, rng: &mut Rng) {
    for kind in TABLES {
        for _ in 0..20 {
            script.held_wide(kind(rng)).held(kind(rng) as u32);
        }
    }
    script.held_wide(9).held_wide(10).held_wide(258);
}

/// Each of the 2,048 words that a usable image may have, and some that it may
/// not.
fn every_word(_: &mut Rng) -> Script {
    let mut script = Script::default();
    script.fresh(1);
    for word in (0..2048u16).chain([2048, 4095, 4096, 32_767, 65_535]) {
        let table = usize::from(word % 16);
        script.poke_all(WORDS + 2 * table, &word.to_be_bytes());
        script.held_wide(if table < 8 { table + 1 } else { table + 3 } as u64);
    }
    script
}

/// Images and outputs that are just right, too short or too long, and frames of
/// no byte among the others.
fn lengths(rng: &mut Rng) -> Script {
    let mut script = Script::default();
    script.fresh(1);
    for image in [0, 23_753, 23_816, 23_817, 23_818, 24_000, 23_817] {
        script.image_length(image);
        for output in [0, 9, 268, 269, 270, 400, 401, 65_535] {
            for command in [50, 51, 60] {
                for number in [0, sealing(rng)] {
                    let frame = ask(1, command, &good_data(rng, command));
                    script.output(output, rng.byte()).serve_by(number, &frame);
                    script.output(output, rng.byte()).serve_by(number, b"");
                }
            }
            ask_held(&mut script, rng);
            script.held_wide(rng.between(1, 8).into()).held_wide(258);
        }
    }
    script.show_all();
    script
}

/// One call whose frame brings the script to this size.
fn filled(size: usize) -> Script {
    let mut script = Script::default();
    script.fresh(1).output(400, 7).held_wide(1);
    let frame = size - script.0.len() - 11;
    script.serve_by(0, &vec![b'0'; frame]);
    script
}

/// The limit falls between two records, so the second is never seen.
fn records_past_end(_: &mut Rng) -> Script {
    let mut script = filled(SCRIPT_MAX);
    script.held_wide(1).fresh(1).0.push(b'?');
    script
}

/// The records of its own cut short: at the letter, in the number and behind it,
/// in the length and behind it, and a byte before the end.
const CUT: [&[u8]; 10] = [
    b"Z",
    b"Z\x00",
    b"Z\x00\x00\x00\x00\x00\x00\x00",
    b"Z\x00\x00\x00\x00\x00\x00\x00\x00",
    b"Z\x00\x00\x00\x00\x00\x00\x00\x00\x00",
    b"Z\x00\x00\x00\x00\x00\x00\x00\x00\x00\x09",
    // One byte short this has a whole frame in it.
    b"Z\x00\x00\x00\x00\x00\x00\x00\x00\x00\x0A:0132CD\r\n",
    b"J",
    b"J\x00\x00\x00\x01",
    b"J\x00\x00\x00\x00\x00\x00\x00",
];

/// What the probe knows and the panel's program does not, and what neither does.
const UNKNOWN: [&[u8]; 17] = [
    b"X",
    b"T\x00\x09:0132CD\r\n",
    b"B\x00\x02\x01\x32",
    b"U",
    b"D",
    b"A\x00\x00\x00\x01\x00\x00\x00\x00",
    b"C\x00\x00",
    b"R\x01\x00\x00\x00\x00\x00\x00\x00\x00",
    b"Y\x01",
    b"Q\x00\x00\x01",
    b"N\x00\x09:0132CD\r\n",
    b"V\x00\x09:0132CD\r\n",
    b"z\x00\x00\x00\x00\x00\x00\x00\x00\x00\x00",
    b"j\x00\x00\x00\x00\x00\x00\x00\x01",
    b"?",
    b"\x00",
    b"\xFF\n",
];

/// How many scripts `broken` has.
const BROKEN: usize = CUT.len() + UNKNOWN.len();

/// Records of the panel's own that are cut short, then letters that begin none.
fn broken(number: usize) -> Option<Script> {
    let end = CUT.into_iter().chain(UNKNOWN).nth(number)?;
    let mut script = Script::default();
    script.fresh(1).serve_by(0, b":0132CD\r\n").0.extend(end);
    if number >= CUT.len() {
        script.held_wide(1); // must not be reached
    }
    Some(script)
}

/// Sessions with all records of the panel's program. As with the probe, of three
/// images one is reached by calls alone, one has old bytes in it from the start,
/// and one has words and bytes changed all along.
fn by_chance(rng: &mut Rng) -> Script {
    let mut script = Script::default();
    let address = rng.pick(&[1, 1, 0xCE, 255, 0x3A, 0x80]);
    script.fresh(address);
    let (old, changing) = rng.pick(&[(false, false), (true, false), (true, true)]);
    if old {
        old_bytes(&mut script, rng);
    }
    for _ in 0..10 + rng.below(30) {
        if changing && rng.percent(30) {
            change_behind(&mut script, rng);
        }
        match rng.below(10) {
            0 => script.output(rng.pick(&[0, 132, 268, 269, 270, 400]), rng.byte()),
            1 | 2 => ask_held(&mut script, rng),
            3 => unusable_for_a_while(&mut script, rng, address),
            _ => serve_session(&mut script, rng, address),
        };
        if rng.percent(60) {
            script.output(269, rng.byte());
        }
    }
    script.show_all();
    if rng.percent(10) {
        script.0.truncate(script.0.len() - 1);
    }
    script
}

/// Half of these calls are by a number, and half of those are sealed.
fn serve_session<'a>(script: &'a mut Script, rng: &mut Rng, address: u8) -> &'a mut Script {
    for contents in session(rng, address) {
        let piece = piece(rng, &contents);
        let number = sealing(rng);
        match rng.below(10) {
            0 => script.serve_sealed(&piece),
            1 | 2 => script.serve(&piece),
            3 => script.serve_by(number, &piece).serve_by(0, &piece),
            4 => script.serve_by(0, &piece).serve_by(number, &piece),
            5 => script.serve_by(number, &piece).serve(&piece),
            6 => script.serve_by(number, &piece),
            _ => script.serve_by(0, &piece),
        };
        if rng.percent(10) {
            ask_held(script, rng);
        }
    }
    script
}

fn unusable_for_a_while<'a>(script: &'a mut Script, rng: &mut Rng, address: u8) -> &'a mut Script {
    match rng.below(5) {
        0 => script.image_length(rng.pick(&[0, 23_753, 23_816, 23_818, 24_000])),
        1 => script.poke(rng.below(6), rng.byte()),
        2 => script.poke(WORDS + 2 * rng.below(16), rng.between(6, 9)),
        3 => script.poke(ERRORS + 64 * rng.below(8), rng.between(20, 23)),
        _ => script.fill(rng.byte()),
    };
    serve_session(script, rng, address);
    ask_held(script, rng).image_length(IMAGE_BYTES);
    script
        .fresh(rng.pick(&[address, address, 0]))
        .fresh(address)
}
