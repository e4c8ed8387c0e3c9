//! Scripts for the probe program: first those with a purpose of their own,
//! then the fixed calls and the fixed lines, then more with a purpose, then
//! broken records, then calls by chance.

mod listener;
mod moves;
mod order;
mod quantity;
mod table_file;

#[cfg(test)]
pub use self::table_file::one_wrong_files;
use crate::fixed::listener::{hearings, Hearing};
use crate::fixed::{self, Change, Session, FILL};
use crate::items::{self, Item, ITEMS};
use crate::probe::SCRIPT_MAX;
use crate::streams::{
    any_errors, ask, clock, constants, either_case, errors, faulty_data, faulty_frames, frame,
    good_data, in_either_case, limit_errors, more_and_less, older_errors, part, piece, session,
    with_other_sums, Rng, COMMANDS, TEMPERATURES, WRITING,
};

pub const IMAGE_BYTES: usize = 23_817;
pub const WORDS: usize = 17;
const CONSTANTS: usize = 49;
pub const ERRORS: usize = 713;
const TABLES: usize = 1225;

pub type Case = (&'static str, fn(&mut Rng) -> Script);

const CASES: [Case; 55] = [
    ("empty", |_| Script::default()),
    // These stand early, so that faults planted in them are found soon.
    ("moves", moves::done),
    ("moves refused", moves::refused),
    ("repeats in two orders", order::repeats),
    ("sealed lists in three orders", order::sealed),
    ("lists out of order", order::not_kept),
    ("listener, first lines", listener::first_lines),
    ("listener, noise of every kind", listener::noisy),
    ("listener, more noise of every kind", listener::noisy),
    ("listener, one long line", listener::one_long_line),
    ("listener, any record", listener::any_record),
    ("listener, long runs", listener::long_runs),
    ("listener, served in noise without 3Ah", listener::served),
    ("listener, served in any noise", listener::served_in_any),
    ("listener, among other calls", listener::among_others),
    ("quantity, first questions", quantity::first_questions),
    ("table file, first files", table_file::first_files),
    ("rows at other addresses", other_addresses),
    ("fresh images", fresh_images),
    ("image lengths", image_lengths),
    ("spoiled head", spoiled_head),
    ("spoiled row counts", spoiled_counts),
    ("spoiled words", spoiled_words),
    ("unjudged bytes", unjudged_bytes),
    ("output lengths of serve", serve_outputs),
    ("output lengths of take apart", take_apart_outputs),
    ("output lengths of build", build_outputs),
    ("taking apart every length", take_apart_lengths),
    ("one fault over another", fault_ladder),
    ("every word", every_word),
    ("table numbers", table_numbers),
    ("parts with gaps", parts_with_gaps),
    ("one write to each kind of cell", each_cell),
    ("letters in either case", letters),
    ("65,536 bytes in one record", |_| filled(SCRIPT_MAX)),
    ("a record past 65,536 bytes", |_| filled(SCRIPT_MAX + 1)),
    ("records after 65,536 bytes", records_past_end),
    ("other checksums", other_checksums),
    ("error table temperatures", temperatures),
    ("sealed, every fault", sealed_faults),
    ("sealed, a look everywhere", sealed_looks),
    ("sealed, letters and checksums", sealed_texts),
    ("signatures", signatures),
    ("false signatures", false_signatures),
    ("lists in three orders", order::unsealed),
    ("longer lists in two orders", order::longer),
    ("lists without a clash", order::apart),
    ("quantity, every row", quantity::every_row),
    ("quantity, a fall at every step", quantity::every_fall),
    ("quantity, parts missing", quantity::parts_missing),
    ("quantity, all tables", quantity::every_table),
    ("quantity, extremes", quantity::extremes),
    ("quantity, images not usable", quantity::unusable),
    ("quantity, among other calls", quantity::among_others),
    ("quantity, every row once more", quantity::every_row),
];

/// Those that come behind the fixed calls and lines. They are many, and a fault
/// that is planted in a fixed call would be found later behind them.
const LATER: &[Case] = &table_file::CASES;

/// A script under construction.
#[derive(Default)]
pub struct Script(pub Vec<u8>);

impl Script {
    /// A letter, then a number high byte first in so many bytes.
    pub fn put(&mut self, letter: u8, number: usize, bytes: usize) -> &mut Self {
        self.0.push(letter);
        self.0.extend(&(number as u64).to_be_bytes()[8 - bytes..]);
        self
    }

    pub fn image_length(&mut self, length: usize) -> &mut Self {
        self.put(b'L', length, 3)
    }

    pub fn poke(&mut self, offset: usize, value: u8) -> &mut Self {
        self.put(b'P', offset, 3).0.push(value);
        self
    }

    pub fn poke_all(&mut self, offset: usize, bytes: &[u8]) -> &mut Self {
        for (place, &value) in bytes.iter().enumerate() {
            self.poke(offset + place, value);
        }
        self
    }

    pub fn fill(&mut self, value: u8) -> &mut Self {
        self.given(b'W', &[value])
    }

    /// The image buffer and the second one change places.
    fn exchange(&mut self) -> &mut Self {
        self.given(b'X', &[])
    }

    pub fn output(&mut self, length: usize, fill: u8) -> &mut Self {
        self.put(b'O', length, 2).0.push(fill);
        self
    }

    pub fn fresh(&mut self, address: u8) -> &mut Self {
        self.put(b'F', usize::from(address), 1)
    }

    /// A letter, then these bytes.
    pub fn given(&mut self, letter: u8, bytes: &[u8]) -> &mut Self {
        self.0.push(letter);
        self.0.extend(bytes);
        self
    }

    /// A letter, then how many bytes, then these.
    fn counted(&mut self, letter: u8, bytes: &[u8]) -> &mut Self {
        self.given(letter, &[]).length_and(bytes)
    }

    /// How many bytes, then these.
    pub fn length_and(&mut self, bytes: &[u8]) -> &mut Self {
        self.0.extend(&(bytes.len() as u64).to_be_bytes()[6..]);
        self.0.extend(bytes);
        self
    }

    pub fn serve(&mut self, frame: &[u8]) -> &mut Self {
        self.counted(b'S', frame)
    }

    pub fn serve_sealed(&mut self, frame: &[u8]) -> &mut Self {
        self.counted(b'K', frame)
    }

    fn take_apart(&mut self, frame: &[u8]) -> &mut Self {
        self.counted(b'T', frame)
    }

    fn build(&mut self, contents: &[u8]) -> &mut Self {
        self.counted(b'B', contents)
    }

    pub fn held(&mut self, table: u32) -> &mut Self {
        self.put(b'H', table as usize, 4)
    }

    /// Shows the whole image buffer, with what lies past a right image.
    pub fn show_all(&mut self) -> &mut Self {
        self.image_length(24_000).fresh(1)
    }
}

/// How many scripts have a purpose of their own.
pub fn purposeful() -> usize {
    CASES.len() + fixed::sessions().len() + hearings().len() + LATER.len() + BROKEN
}

/// Whether the script of that number is one of fixed calls or of fixed lines.
pub fn is_fixed(number: usize) -> bool {
    (CASES.len()..purposeful() - BROKEN - LATER.len()).contains(&number)
}

/// A script and what it is for.
pub fn script(seed: u64, number: usize) -> (String, Vec<u8>) {
    // Kept apart from the desk streams of the same seed.
    let mut rng = Rng::new(seed, 1 << 32 | number as u64);
    if let Some((name, make)) = CASES.get(number) {
        return (name.to_string(), make(&mut rng).0);
    }
    let (number, sessions) = (number - CASES.len(), fixed::sessions());
    if let Some(session) = sessions.get(number) {
        return (session.name.to_string(), fixed_calls(session));
    }
    let number = number - sessions.len();
    if let Some(hearing) = hearings().get(number) {
        return (hearing.name.to_string(), fixed_lines(hearing));
    }
    let number = number - hearings().len();
    if let Some((name, make)) = LATER.get(number) {
        return (name.to_string(), make(&mut rng).0);
    }
    match broken(number - LATER.len()) {
        Some(script) => ("broken record".to_string(), script.0),
        None => ("calls by chance".to_string(), by_chance(&mut rng).0),
    }
}

/// A session of fixed calls, each with an output of its own.
pub fn fixed_calls(session: &Session) -> Vec<u8> {
    let mut script = Script::default();
    script
        .fresh(session.address)
        .image_length(session.image_length);
    for &(offset, value) in &session.changed {
        script.poke(offset, value);
    }
    for step in &session.steps {
        for change in &step.changed {
            match change {
                Change::Bytes(offset, bytes) => script.poke_all(*offset, bytes),
                Change::Fill(value) => script.fill(*value),
                Change::Length(length) => script.image_length(*length),
                Change::Exchange => script.exchange(),
            };
        }
        script.output(session.output, FILL);
        match step.letter {
            'F' | 'H' | 'J' | 'U' | 'D' | 'A' => script.given(step.letter as u8, &step.input),
            'Z' => {
                let (number, frame) = step.input.split_at(8);
                script.given(b'Z', number).length_and(frame)
            }
            letter => script.counted(letter as u8, &step.input),
        };
    }
    script.0
}

/// Fixed lines, with an output for them all.
pub fn fixed_lines(hearing: &Hearing) -> Vec<u8> {
    let mut script = Script::default();
    script.fresh(1).output(269, FILL);
    for line in &hearing.lines {
        if let Some(set) = &line.set {
            script.gathering(u8::from(set.gathering), set.count);
            script.room_fill(set.fill);
            for &(offset, value) in &set.bytes {
                script.room_poke(offset, value);
            }
        }
        script.hear(line.then, &line.bytes);
    }
    script.0
}

fn other_addresses(_: &mut Rng) -> Script {
    let mut script = Script::default();
    for address in [1, 0xCE, 2, 0x32, 127, 128, 254, 255] {
        script.fresh(address).held(1);
        for asked in [address, address ^ 1, 0, 1, 255] {
            script.output(269, 0xA5).serve(&ask(asked, 50, &[]));
            script.serve(&ask(asked, 51, &[address]));
        }
        script.serve(&ask(address, 60, &[18, 11]));
        script.serve(&ask(address, 53, &[]));
    }
    script
        .serve(b":CE3200\r\n")
        .fresh(0xCE)
        .serve(b":CE3200\r\n");
    script
}

/// All orders of a wrong length and address 0, over a buffer of old bytes.
fn fresh_images(rng: &mut Rng) -> Script {
    let mut script = Script::default();
    for length in [
        0, 1, 23_753, 23_816, 23_817, 23_818, 24_000, 65_535, 0xFF_FFFF,
    ] {
        for address in [0, 1, 0xCE, 255] {
            for _ in 0..20 {
                script.poke(rng.below(24_000), rng.byte());
            }
            script.poke(items::WORDS.start + rng.below(64), rng.between(1, 255));
            script.image_length(length).fresh(address);
            script.serve(&ask(address, 50, &[])).held(1);
        }
    }
    script.poke(24_000, 7).poke(0xFF_FFFF, 7).show_all();
    script
}

/// A good image that is cut short or goes on too long.
fn image_lengths(_: &mut Rng) -> Script {
    let mut script = Script::default();
    script.fresh(1);
    for length in [
        0, 5, 6, 23_752, 23_753, 23_816, 23_817, 23_818, 24_000, 23_817,
    ] {
        script.image_length(length);
        script.serve(&ask(1, 51, &[0x5A])).held(1);
        script.serve(&ask(1, 60, &[18, 11])).held(18);
    }
    script.show_all();
    script
}

/// Changes a byte of a fresh image, asks, puts the byte back, asks again.
fn spoil(script: &mut Script, offset: usize, good: u8, bad: u8) {
    script.poke(offset, bad);
    script.serve(&ask(1, 51, &[bad])).held(1).held(0);
    script.poke(offset, good);
    script.serve(&ask(1, 50, &[])).held(11);
}

fn spoiled_head(_: &mut Rng) -> Script {
    let mut script = Script::default();
    script.fresh(1);
    for (offset, good) in [b'I', b'Z', b'K', 0, 2, 1].into_iter().enumerate() {
        for bad in [0, 1, 2, b'i', b'I', b'Z', b'K', 128, 255] {
            spoil(&mut script, offset, good, bad);
        }
    }
    script.show_all();
    script
}

fn spoiled_counts(_: &mut Rng) -> Script {
    let mut script = Script::default();
    script.fresh(1);
    for table in 0..8 {
        for count in [1, 21, 22, 255] {
            spoil(&mut script, ERRORS + 64 * table, 0, count);
            // The byte before and the byte after are not judged.
            script.poke(ERRORS + 64 * table - 1, count);
            script.poke(ERRORS + 64 * table + 1, count);
        }
    }
    script.serve(&ask(1, 55, &[7])).serve(&ask(1, 64, &[8]));
    script.show_all();
    script
}

fn spoiled_words(_: &mut Rng) -> Script {
    let mut script = Script::default();
    script.fresh(1);
    for table in 0..16 {
        let high = WORDS + 2 * table;
        script.poke(high + 1, 255);
        for value in [7, 8, 128, 255] {
            spoil(&mut script, high, 0, value);
        }
    }
    script.serve(&ask(1, 78, &[])).serve(&ask(1, 54, &[0]));
    script.show_all();
    script
}

/// Bytes no write could leave there come back as they are.
fn unjudged_bytes(rng: &mut Rng) -> Script {
    let mut script = Script::default();
    script.fresh(1);
    poke_unjudged(&mut script, rng);
    look_everywhere(&mut script, Script::serve);
    script.show_all();
    script
}

pub fn poke_unjudged(script: &mut Script, rng: &mut Rng) {
    let mut places: Vec<usize> = (6..WORDS).chain(items::WORDS).collect();
    for channel in [0, 3, 7] {
        places.extend((0..83).map(|byte| CONSTANTS + 83 * channel + byte));
    }
    for table in [0, 4, 7] {
        places.extend((1..64).map(|byte| ERRORS + 64 * table + byte));
    }
    for table in [0, 1, 7, 8, 9, 15] {
        places.extend((0..60).map(|_| TABLES + 1408 * table + rng.below(1408)));
    }
    for place in places {
        script.poke(place, rng.byte());
    }
    for (table, count) in [(0, 0), (4, 21), (7, 9)] {
        script.poke(ERRORS + 64 * table, count);
    }
}

/// A record that serves a frame, sealed or unsealed.
pub type Serving = for<'a> fn(&'a mut Script, &[u8]) -> &'a mut Script;

/// Every reading command on every item.
pub fn look_everywhere(script: &mut Script, serve: Serving) {
    serve(script, &ask(1, 50, &[]));
    serve(script, &ask(1, 78, &[]));
    for item in 0..=8 {
        for command in [54, 55, 63, 64] {
            serve(script, &ask(1, command, &[item]));
        }
    }
    for table in (1..=8).chain(11..=18) {
        serve(script, &ask(1, 61, &[table]));
        serve(script, &ask(1, 60, &[table, 1 + table % 11]));
        script.held(u32::from(table));
    }
}

fn serve_outputs(rng: &mut Rng) -> Script {
    let mut script = Script::default();
    script.fresh(1);
    for length in [0, 1, 9, 131, 132, 268, 269, 270, 399, 400, 401, 65_535] {
        for frame in [
            ask(1, 51, &[length as u8]),
            ask(1, 50, &[]),
            ask(1, 59, &part(rng, 3, 2)),
            ask(1, 60, &[3, 2]),
            ask(2, 50, &[]),
            b":".to_vec(),
            Vec::new(),
        ] {
            script.output(length, rng.byte()).serve(&frame);
        }
    }
    script.held(3).show_all();
    script
}

fn take_apart_outputs(rng: &mut Rng) -> Script {
    let mut script = Script::default();
    for length in [0, 1, 2, 130, 131, 132, 133, 268, 269, 400] {
        for count in [0, 1, 2, 3, 131, 132, 133] {
            script.output(length, rng.byte());
            script.take_apart(&frame(&rng.bytes(count)));
            script.take_apart(b":0132CE\r\n").take_apart(b":0132cD\r\n");
            script.take_apart(b":0132gD\r\n");
            script.take_apart(b";0132CD\r\n").take_apart(b"");
        }
    }
    script
}

/// Contents of every length around the rule, with room just enough, room
/// one byte short, and none.
fn build_outputs(rng: &mut Rng) -> Script {
    let mut script = Script::default();
    for count in 0..=136 {
        let contents = rng.bytes(count);
        for length in [2 * count + 4, 2 * count + 5] {
            script.output(length, rng.byte()).build(&contents);
        }
    }
    for (count, length) in [(0, 0), (1, 0), (2, 0), (132, 0), (133, 0), (300, 400)] {
        script.output(length, 1).build(&rng.bytes(count));
    }
    // Sums that come to 0 and to all ones, and digits on both sides of 9.
    for contents in [[0xCE, 0x32], [0, 0], [128, 128], [255, 0], [0x9A, 0xA9]] {
        script.output(400, 0).build(&contents);
    }
    script
}

/// Frames of every length up to 280: good ones, and digits by chance.
fn take_apart_lengths(rng: &mut Rng) -> Script {
    let mut script = Script::default();
    script.output(400, 0x33);
    for count in 0..=140 {
        let frame = frame(&rng.bytes(count));
        script.take_apart(&frame);
        script.take_apart(&either_case(rng, frame));
    }
    for length in 0..=24 {
        let digits = (0..length).map(|_| rng.pick(b"0123456789ABCDEFabcdefg@:"));
        let text = [b":".to_vec(), digits.collect(), b"\r\n".to_vec()].concat();
        script.take_apart(&text);
        script.take_apart(&text[1..]).take_apart(&text[..length]);
    }
    script
}

/// Starts with the last check and adds an earlier fault to it each time, so
/// that the number must fall from 11 to 1.
fn fault_ladder(rng: &mut Rng) -> Script {
    let mut script = Script::default();
    script.fresh(1);
    let mut data = constants(rng, 0);
    data[4] = 0;
    script.serve(&ask(1, 53, &data));
    data[0] = 8;
    script.serve(&ask(1, 53, &data));
    data.push(0);
    script.serve(&ask(1, 53, &data));
    script.serve(&ask(1, 52, &data));
    let mut frame = ask(2, 52, &data);
    script.serve(&frame).take_apart(&frame);
    let last = frame.len() - 3; // low half of the checksum
    frame[last] = if frame[last] == b'0' { b'1' } else { b'0' };
    script.serve(&frame).take_apart(&frame);
    frame[1] = b'g';
    script.serve(&frame).take_apart(&frame);
    frame[0] = b'0';
    script.serve(&frame).take_apart(&frame);
    frame.push(b'\n');
    script.serve(&frame).take_apart(&frame);
    script.output(268, 9).serve(&frame).take_apart(&frame);
    script.output(131, 9).serve(&frame).take_apart(&frame);
    script.poke(5, 0).serve(&frame).held(9).held(1);
    // An error table with a bad number, a bad count and falling rows.
    script.fresh(1).output(269, 0);
    for (number, count) in [(1, 2), (9, 2), (1, 3), (0, 0)] {
        script.serve(&ask(1, 62, &[number, count, 9, 0, 0, 8, 0, 0]));
        script.serve(&ask(1, 62, &[number, count, 9, 0, 0, 8, 0]));
    }
    script
}

/// Each of the 2,048 words a usable image may have, and some it may not.
fn every_word(_: &mut Rng) -> Script {
    let mut script = Script::default();
    script.fresh(1);
    for word in (0..2048u16).chain([2048, 4095, 4096, 32_767, 65_535]) {
        let [high, low] = word.to_be_bytes();
        let table = word % 16;
        let place = WORDS + 2 * usize::from(table);
        script.poke(place, high).poke(place + 1, low);
        script.held(u32::from(if table < 8 { table + 1 } else { table + 3 }));
    }
    script
}

/// Numbers that are right only if their upper bytes are dropped, too.
fn table_numbers(rng: &mut Rng) -> Script {
    let mut script = Script::default();
    script.held(1).fresh(1);
    for (table, number) in [(2, 1), (12, 1), (12, 2), (8, 3), (11, 1), (18, 11)] {
        script.serve(&ask(1, 59, &part(rng, table, number)));
    }
    for base in [0, 1 << 8, 1 << 16, 1 << 24, 1 << 31, 0xFFFF_FF00] {
        for table in 0..=20 {
            script.held(base + table);
        }
        script.held(base + 255);
    }
    script
}

fn parts_with_gaps(rng: &mut Rng) -> Script {
    let mut script = Script::default();
    script.fresh(1);
    let orders: [&[u8]; 4] = [
        &[1, 3, 5, 2, 2, 4, 11, 10, 9, 8, 7, 6, 6],
        &[11, 11, 10, 1, 2, 3, 0, 12],
        &[2, 1, 1],
        &[1, 2, 3, 4, 5, 6, 7, 8, 9, 10],
    ];
    for (table, order) in [2, 12, 8, 11].into_iter().zip(orders) {
        for &number in order {
            script.serve(&ask(1, 59, &part(rng, table, number)));
            for look in [1, 2, 3, 8, 11, 12, 13, 18] {
                script.held(look);
            }
        }
    }
    script.serve(&ask(1, 61, &[2])).show_all();
    script
}

/// A write that is taken and one that is refused for each kind of cell, with
/// the image shown after each.
fn each_cell(rng: &mut Rng) -> Script {
    let mut script = Script::default();
    script.fresh(1);
    for byte in [0x0F, 0xF0] {
        script.serve(&ask(1, 51, &[byte])).serve(&ask(1, 50, &[]));
        script.serve(&ask(1, 51, &[byte, byte]));
    }
    for mode in [255, 1, 0, 254, 255] {
        script.serve(&ask(1, 76, &[mode]));
    }
    for command in COMMANDS {
        script.serve(&ask(1, command, &[1; 6])); // no command has this length
    }
    let now = clock(rng);
    script
        .serve(&ask(1, 77, &now))
        .serve(&ask(1, 77, &now[1..]));
    for item in 0..=9 {
        script.serve(&ask(1, 53, &constants(rng, item)));
        script.serve(&ask(1, 62, &errors(rng, item, 21)));
        script.serve(&ask(1, 62, &errors(rng, item, 20 - item)));
    }
    for table in 0..=19 {
        script.serve(&ask(1, 59, &part(rng, table, 1 + table % 11)));
        script.serve(&ask(1, 59, &part(rng, table, 11)));
    }
    look_everywhere(&mut script, Script::serve);
    script.show_all();
    script
}

/// Wish 2 for each of the commands, at addresses with letters too; the longest
/// draw stays below 65,536 bytes.
fn letters(rng: &mut Rng) -> Script {
    let mut script = Script::default();
    for address in [1, 0xCE, 0x1F, 0xAB].repeat(2) {
        script.fresh(address);
        for command in COMMANDS {
            for frame in in_either_case(rng, address, command) {
                script.output(269, rng.byte());
                script.serve(&frame).take_apart(&frame);
            }
        }
    }
    script.show_all();
    script
}

/// Wish 4 for each of the commands; the longest draw stays below 65,536 bytes.
fn other_checksums(rng: &mut Rng) -> Script {
    let mut script = Script::default();
    for address in [1, 0xCE, 0x80, 0xFF] {
        script.fresh(address);
        for command in COMMANDS {
            for frame in with_other_sums(rng, address, command) {
                script.output(269, rng.byte());
                script.serve(&frame).take_apart(&frame);
            }
        }
    }
    script.show_all();
    script
}

/// Wish 5: tables as they were stored before it, and writes over them; the
/// longest draw stays below 65,536 bytes.
fn temperatures(rng: &mut Rng) -> Script {
    let mut script = Script::default();
    script.fresh(1);
    for number in 1..=8 {
        let count = rng.between(2, 21);
        let older = older_errors(rng, number, count);
        let place = ERRORS + 64 * usize::from(number - 1);
        for (byte, &value) in older[1..].iter().enumerate() {
            script.poke(place + byte, value);
        }
        script.serve(&ask(1, 63, &[number]));
        script.serve(&ask(1, 64, &[number]));
        script.serve(&ask(1, 62, &older));
        script.serve(&ask(1, 63, &[number]));
    }
    script.held(1);
    for data in limit_errors(1) {
        script.serve(&ask(1, 62, &data)).serve(&ask(1, 64, &[1]));
    }
    for _ in 0..350 {
        let number = rng.between(1, 8);
        script.serve(&ask(1, 62, &any_errors(rng, number)));
        script.serve(&ask(1, 63, &[number]));
    }
    script.show_all();
    script
}

/// Document 02, wish 11 for each of the commands: a good frame and each
/// fault that a call can have, sealed and then unsealed; the longest draw stays
/// below 65,536 bytes.
fn sealed_faults(rng: &mut Rng) -> Script {
    let mut script = Script::default();
    for address in [1, 0xCE] {
        script.fresh(address);
        old_bytes(&mut script, rng);
        for command in COMMANDS {
            let good = ask(address, command, &good_data(rng, command));
            let good = either_case(rng, good);
            script.output(269, rng.byte());
            script.serve_sealed(&good).serve(&good).serve_sealed(&good);
            for data in faulty_data(rng, command) {
                both_ways(&mut script, rng, &ask(address, command, &data));
            }
            before_7(&mut script, rng, address, &good);
            let elsewhere = ask(!address, command, &good_data(rng, command));
            both_ways(&mut script, rng, &elsewhere);
        }
        for command in [0, 49, 52, 65, 79, 178, 255] {
            let unknown = ask(address, command, &good_data(rng, 60));
            both_ways(&mut script, rng, &unknown);
            before_7(&mut script, rng, address, &unknown);
            let elsewhere = ask(!address, command, &[]);
            both_ways(&mut script, rng, &elsewhere);
        }
    }
    script.show_all();
    script
}

/// A frame served sealed and then unsealed, each with an output of its own.
fn both_ways(script: &mut Script, rng: &mut Rng, frame: &[u8]) {
    let frame = either_case(rng, frame.to_vec());
    script.output(269, rng.byte()).serve_sealed(&frame);
    script.output(269, rng.byte()).serve(&frame);
}

/// Faults of the frame itself, then too short an output, then an image that is
/// not usable, with the frame as it was.
fn before_7(script: &mut Script, rng: &mut Rng, address: u8, good: &[u8]) {
    for frame in faulty_frames(rng, good) {
        both_ways(script, rng, &frame);
    }
    script.output(rng.pick(&[0, 132, 268]), rng.byte());
    script.serve_sealed(good).output(269, rng.byte());
    script.poke(5, 0).serve_sealed(good).poke(5, address);
}

/// Document 02, wish 11: everything that is stored is read when sealed, and
/// stays through sealed writes.
fn sealed_looks(rng: &mut Rng) -> Script {
    let mut script = Script::default();
    script.fresh(1);
    poke_unjudged(&mut script, rng);
    look_everywhere(&mut script, Script::serve_sealed);
    for command in WRITING.repeat(5) {
        script.serve_sealed(&ask(1, command, &good_data(rng, command)));
    }
    look_everywhere(&mut script, Script::serve);
    script.show_all();
    script
}

/// Document 02, wish 11: letters in either case and other checksums, as
/// wishes 2 and 4 have them, are read alike when sealed; the longest draw
/// stays below 65,536 bytes.
fn sealed_texts(rng: &mut Rng) -> Script {
    let mut script = Script::default();
    for address in [0xCE, 0xAB] {
        script.fresh(address);
        for command in COMMANDS {
            for frame in in_either_case(rng, address, command) {
                script.output(269, rng.byte()).serve_sealed(&frame);
            }
            for frame in with_other_sums(rng, address, command) {
                script.output(269, rng.byte()).serve_sealed(&frame);
            }
            // So that later ones meet another image.
            let good = good_data(rng, command);
            script.serve(&ask(address, command, &good));
        }
    }
    script.show_all();
    script
}

/// Document 02, wish 7: each item is written, written over and written again
/// as it is, and asked behind each, with no byte changed behind the block's
/// back.
fn signatures(rng: &mut Rng) -> Script {
    let mut script = Script::default();
    script.fresh(1);
    for item in &ITEMS {
        let [more, less] = more_and_less(rng, item);
        for data in [&more, &less, &less, &more] {
            write_and_ask(&mut script, item, data);
        }
    }
    look_everywhere(&mut script, Script::serve_sealed);
    leave_words(&mut script, rng);
    look_everywhere(&mut script, Script::serve);
    script.show_all();
    script
}

/// Document 02, wish 7: the same over changed bytes, and with words that are
/// false; the longest draw stays below 65,536 bytes.
fn false_signatures(rng: &mut Rng) -> Script {
    let mut script = Script::default();
    script.fresh(1);
    for table in 0..16 {
        let held: u16 = rng.pick(&[0x000, 0x000, 0x3FF, 0x7FF]);
        script.poke_all(WORDS + 2 * table, &held.to_be_bytes());
    }
    for item in &ITEMS {
        poke_item(&mut script, rng, item);
        let [more, less] = more_and_less(rng, item);
        let any = any_word(rng);
        // So the word goes past either end, and then there and back.
        for (word, data) in [
            (any, &more),
            (0x0000, &less),
            (0x0000, &less),
            (0xFFFF, &more),
            (0xFFFF, &more),
        ] {
            script.poke_all(item.word, &word.to_be_bytes());
            write_and_ask(&mut script, item, data);
        }
    }
    look_everywhere(&mut script, Script::serve_sealed);
    leave_words(&mut script, rng);
    for command in COMMANDS {
        script.serve(&ask(1, command, &good_data(rng, command)));
    }
    script.fresh(0).fresh(1).show_all();
    script
}

/// A write of an item, and then its signature, unsealed and sealed.
fn write_and_ask(script: &mut Script, item: &Item, data: &[u8]) {
    let [write, _, sign] = item.commands;
    let asked = ask(1, sign, &[item.number]);
    script.serve(&ask(1, write, data));
    script.serve(&asked).serve_sealed(&asked);
}

/// Calls that leave every word as it is: writes of what has none, writes that
/// are refused, and sealed ones.
fn leave_words(script: &mut Script, rng: &mut Rng) {
    for command in WRITING {
        script.serve_sealed(&ask(1, command, &good_data(rng, command)));
        for data in faulty_data(rng, command) {
            script.serve(&ask(1, command, &data));
        }
    }
    for command in [51, 76, 77] {
        script.serve(&ask(1, command, &good_data(rng, command)));
    }
}

/// Changes bytes of an item behind the block's back, so many that hardly a part
/// of a table is left out; the image stays usable.
fn poke_item(script: &mut Script, rng: &mut Rng, item: &Item) {
    for _ in 0..8 + item.bytes / 40 {
        match rng.below(item.bytes) {
            // The row count of an error table.
            0 if item.commands[0] == 62 => script.poke(item.offset, rng.between(0, 21)),
            place => script.poke(item.offset + place, rng.byte()),
        };
    }
}

/// A word for an item, half of them at the ends or where a byte is full.
fn any_word(rng: &mut Rng) -> u16 {
    match rng.percent(50) {
        true => rng.pick(&[0x0000, 0x0001, 0x00FF, 0x0100, 0xFF00, 0xFFFE, 0xFFFF]),
        false => rng.below(65_536) as u16,
    }
}

/// One call whose frame brings the script to this size.
fn filled(size: usize) -> Script {
    let mut script = Script::default();
    script.fresh(1).output(400, 7).held(1);
    let frame = size - script.0.len() - 3;
    script.serve(&vec![b'0'; frame]);
    script
}

/// The limit falls between two records, so the second is never seen.
fn records_past_end(_: &mut Rng) -> Script {
    let mut script = filled(SCRIPT_MAX);
    script.held(1).fresh(1).0.push(b'?');
    script
}

/// Each kind of record that goes on behind its letter.
const WHOLE: [&[u8]; 17] = [
    b"L\x00\x5D\x09",
    b"P\x00\x00\x06\x01",
    b"W\x01",
    b"O\x01\x0D\x01",
    b"F\x01",
    b"S\x00\x09:0132CD\r\n",
    b"K\x00\x09:0132CD\r\n",
    b"T\x00\x09:0132CD\r\n",
    b"B\x00\x02\x01\x32",
    b"H\x00\x00\x00\x01",
    b"A\x00\x00\x00\x01\x00\x00\x00\x00",
    b"R\x01\x00\x00\x00\x00\x00\x00\x00\x00",
    b"Y\x01",
    b"Q\x00\x00\x01",
    b"C\x00\x0A:0132CD\r\n:",
    // One byte short these have a whole frame in them.
    b"N\x00\x0A:0132CD\r\n:",
    b"V\x00\x0A:0132CD\r\n:",
];

/// Letters that begin no record.
const UNKNOWN: [&[u8]; 16] = [
    b"?",
    b"s\x00\x00",
    b"k\x00\x00",
    b"u",
    b"d",
    b"x",
    b"a\x00\x00\x00\x01\x00\x00\x00\x00",
    b"c\x00\x00",
    b"w\x00",
    b"n\x00\x00",
    b"v\x00\x00",
    b"y\x00",
    b"r\x00\x00\x00\x00\x00\x00\x00\x00\x00",
    b"G\x00\x00",
    b"\x00",
    b"\xFF\n",
];

/// How many scripts `broken` has.
const BROKEN: usize = 2 * WHOLE.len() + UNKNOWN.len();

/// Each kind of record as a letter alone, then one byte short, then letters that
/// begin no record.
fn broken(number: usize) -> Option<Script> {
    let place = number % WHOLE.len();
    let end = match number / WHOLE.len() {
        0 => &WHOLE[place][..1],
        1 => &WHOLE[place][..WHOLE[place].len() - 1],
        _ => UNKNOWN.get(number - 2 * WHOLE.len()).copied()?,
    };
    let mut script = Script::default();
    script.fresh(1).serve(b":0132CD\r\n").0.extend(end);
    if number >= 2 * WHOLE.len() {
        script.held(1); // must not be reached
    }
    Some(script)
}

/// Sessions and other calls. Of three images one is reached by calls alone, so
/// that its words are true, one has old bytes in it from the start, and one has
/// words and bytes changed all along.
fn by_chance(rng: &mut Rng) -> Script {
    let mut script = Script::default();
    let address = rng.pick(&[1, 1, 0xCE, 255, 0x3A, 0x80]);
    script.fresh(address);
    let (old, changing) = rng.pick(&[(false, false), (true, false), (true, true)]);
    if old {
        old_bytes(&mut script, rng);
    }
    for _ in 0..10 + rng.below(50) {
        if changing && rng.percent(30) {
            change_behind(&mut script, rng);
        }
        if rng.percent(2) {
            moves::about(&mut script, rng, address);
        }
        if rng.percent(2) {
            quantity::about(&mut script, rng, address);
        }
        match rng.below(10) {
            0 => script.output(rng.pick(&[0, 131, 132, 268, 269, 270, 400]), rng.byte()),
            1 => script.held(rng.below(22) as u32 + rng.pick(&[0, 0, 0, 256])),
            2 => other_call(&mut script, rng),
            3 => unusable_for_a_while(&mut script, rng, address),
            4 => listener::off_the_line(&mut script, rng, address),
            _ => serve_session(&mut script, rng, address),
        };
        if rng.percent(60) {
            script.output(269, rng.byte());
        }
    }
    script.show_all();
    if rng.percent(10) {
        script.0.truncate(script.0.len() - 1);
    }
    script
}

/// Fills an image in part, so that it stays usable.
pub fn old_bytes(script: &mut Script, rng: &mut Rng) {
    for _ in 0..rng.below(200) {
        let places = [(6, 11), (CONSTANTS, 664), (ERRORS, 512), (TABLES, 22_528)];
        let (first, count) = rng.pick(&places);
        script.poke(first + rng.below(count), rng.byte());
    }
    for table in 0..8 {
        let count = ERRORS + 64 * table;
        script
            .poke(count, rng.between(0, 21))
            .poke(count + 1, rng.pick(&TEMPERATURES));
    }
    for table in 0..16 {
        let word = WORDS + 2 * table;
        script
            .poke(word, rng.between(0, 7))
            .poke(word + 1, rng.byte());
    }
}

/// Changes a word or bytes of an item behind the block's back.
pub fn change_behind(script: &mut Script, rng: &mut Rng) {
    let item = &ITEMS[rng.below(32)];
    if rng.percent(60) {
        script.poke_all(item.word, &any_word(rng).to_be_bytes());
    } else {
        poke_item(script, rng, item);
    }
}

fn serve_session<'a>(script: &'a mut Script, rng: &mut Rng, address: u8) -> &'a mut Script {
    for contents in session(rng, address) {
        let piece = piece(rng, &contents);
        // A third of these calls are sealed.
        match rng.below(10) {
            0 | 1 => script.serve_sealed(&piece),
            2 => script.serve_sealed(&piece).serve(&piece),
            3 => script.serve(&piece).serve_sealed(&piece),
            _ => script.serve(&piece),
        };
        if rng.percent(10) {
            script.held(rng.below(20) as u32);
        }
    }
    script
}

fn other_call<'a>(script: &'a mut Script, rng: &mut Rng) -> &'a mut Script {
    let count = match rng.below(3) {
        0 => rng.below(140),
        _ => 2 + rng.below(8),
    };
    let contents = rng.bytes(count);
    let short = 2 * contents.len() + rng.below(10);
    match rng.below(3) {
        0 => script.build(&contents),
        1 => script.output(short, rng.byte()).build(&contents),
        _ if count == 0 => script.take_apart(&contents),
        _ => script.take_apart(&piece(rng, &contents)),
    }
}

fn unusable_for_a_while<'a>(script: &'a mut Script, rng: &mut Rng, address: u8) -> &'a mut Script {
    match rng.below(4) {
        0 => script.image_length(rng.pick(&[0, 23_753, 23_816, 23_818, 24_000])),
        1 => script.poke(rng.below(6), rng.byte()),
        2 => script.poke(WORDS + 2 * rng.below(16), rng.between(6, 9)),
        _ => script.poke(ERRORS + 64 * rng.below(8), rng.between(20, 23)),
    };
    serve_session(script, rng, address);
    script.held(1).image_length(IMAGE_BYTES);
    script
        .fresh(rng.pick(&[address, address, 0]))
        .fresh(address)
}
