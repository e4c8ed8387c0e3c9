//! Scripts of document 02, wish 3: tables of every kind, by frames and by hand,
//! and levels of every kind asked of them, with parts missing, with rows that
//! fall, on images that are not usable, and between other calls.

use super::{moves, old_bytes, Script, ERRORS, IMAGE_BYTES, TABLES, WORDS};
use crate::items::{self, ITEMS};
use crate::streams::{ask, good_data, Rng, COMMANDS};
use crate::tables::{all_levels, fall, good, level, one_rise, padded, part, strict, with_runs};
use crate::tables::{bytes, Of, Row, ROWS};

impl Script {
    /// Asks for the volume of a table at a level.
    pub fn quantity(&mut self, table: u32, level: u32) -> &mut Self {
        self.put(b'A', table as usize, 4);
        self.0.extend(level.to_be_bytes());
        self
    }

    /// Writes all parts of a table by frames, in this order.
    fn table(&mut self, address: u8, table: u8, rows: &[Row], order: &[u8]) -> &mut Self {
        for &number in order {
            self.serve(&ask(address, 59, &part(table, rows, number)));
        }
        self
    }

    /// Changes a row of the table at a place behind the block's back; rows count
    /// from 0.
    fn row(&mut self, place: usize, row: usize, to: Row) -> &mut Self {
        self.poke_all(TABLES + 1408 * place + 4 * row, &to.bytes())
    }

    /// Changes a row, where anything of it is another.
    fn row_from(&mut self, place: usize, row: usize, [from, to]: [Row; 2]) -> &mut Self {
        let offset = TABLES + 1408 * place + 4 * row;
        for (at, (old, new)) in from.bytes().into_iter().zip(to.bytes()).enumerate() {
            if old != new {
                self.poke(offset + at, new);
            }
        }
        self
    }

    fn word(&mut self, place: usize, word: u16) -> &mut Self {
        self.poke_all(WORDS + 2 * place, &word.to_be_bytes())
    }
}

const IN_ORDER: [u8; 11] = [1, 2, 3, 4, 5, 6, 7, 8, 9, 10, 11];

/// The parts in any order.
fn any_order(rng: &mut Rng) -> Vec<u8> {
    let mut parts = IN_ORDER.to_vec();
    for last in (1..parts.len()).rev() {
        parts.swap(last, rng.below(last + 1));
    }
    parts
}

/// A table's place among the sixteen, and its number.
fn any_table(rng: &mut Rng) -> (usize, u8) {
    let place = rng.below(16);
    (place, ITEMS[place].number)
}

/// Always the same few questions, at which faults are planted.
pub fn first_questions(_: &mut Rng) -> Script {
    let mut script = Script::default();
    let rows: Vec<Row> = (1..=352)
        .map(|row| Row::new(100 * row, 150 * row))
        .collect();
    script.fresh(1).quantity(1, 100).quantity(9, 100);
    script.table(1, 1, &rows, &IN_ORDER);
    for level in [99, 100, 101, 199, 200, 35_200, 35_201, 65_636] {
        script.quantity(1, level);
    }
    script.quantity(257, 100).quantity(11, 100);
    // Row 3 gets the level of row 2, and then the last row a lower volume.
    script.row(0, 2, Row::new(200, 450));
    script.quantity(1, 200).quantity(1, 250);
    script.row(0, 351, Row::new(35_200, 52_649));
    script.quantity(1, 100).quantity(1, 99);
    script.word(0, 1023).quantity(1, 100);
    script.serve(&ask(1, 50, &[]));
    script.poke(5, 0).quantity(1, 100).quantity(9, 100);
    script
}

/// Each row's level, those beside it and one between, on tables of three kinds.
pub fn every_row(rng: &mut Rng) -> Script {
    let mut script = Script::default();
    script.fresh(1);
    for draw in [strict, with_runs, padded] {
        let (rows, (_, table)) = (draw(rng), any_table(rng));
        let order = any_order(rng);
        script.table(1, table, &rows, &order);
        for level in all_levels(rng, &rows) {
            script.quantity(table.into(), level);
        }
        script.serve(&ask(1, 61, &[table]));
    }
    script.show_all();
    script
}

/// A fall at every step, of a level and of a volume, and then none.
pub fn every_fall(rng: &mut Rng) -> Script {
    let mut script = Script::default();
    script.fresh(1);
    let (rows, (place, table)) = (strict(rng), any_table(rng));
    script.table(1, table, &rows, &IN_ORDER);
    for step in 1..ROWS {
        for of in [Of::Level, Of::Volume] {
            let Some((row, to)) = fall(rng, &rows, step, of) else {
                continue; // not in rows that all rise by so little
            };
            script.row_from(place, row, [rows[row], to]);
            script.quantity(table.into(), level(rng, &rows));
            script.row_from(place, row, [to, rows[row]]);
        }
        if step % 8 == 0 {
            script.quantity(table.into(), level(rng, &rows));
        }
    }
    script.show_all();
    script
}

/// A row of a table, or several, lower or higher than they should be.
fn some_falls(script: &mut Script, rng: &mut Rng, place: usize, rows: &mut [Row]) {
    for _ in 0..rng.pick(&[1, 1, 2, 5]) {
        let any = 1 + rng.below(ROWS - 1);
        let border = 32 * (1 + rng.below(10));
        let step = rng.pick(&[1, ROWS - 1, border, any]);
        let of = rng.pick(&[Of::Level, Of::Volume]);
        if let Some((row, to)) = fall(rng, rows, step, of) {
            rows[row] = to;
            script.row(place, row, to);
        }
    }
}

/// Questions of every kind of one table.
fn ask_some(script: &mut Script, rng: &mut Rng, table: u8, rows: &[Row], count: usize) {
    for _ in 0..count {
        script.quantity(table.into(), level(rng, rows));
    }
}

/// Parts come in any order, sealed ones between, with questions behind each; then
/// each part is missing, and more of them.
pub fn parts_missing(rng: &mut Rng) -> Script {
    let mut script = Script::default();
    script.fresh(1);
    for _ in 0..3 {
        let (rows, (place, table)) = (good(rng), any_table(rng));
        script.word(place, 0);
        for number in any_order(rng) {
            let frame = ask(1, 59, &part(table, &rows, number));
            ask_some(&mut script, rng, table, &rows, 1);
            script.serve_sealed(&frame);
            ask_some(&mut script, rng, table, &rows, 1);
            script.serve(&frame);
            ask_some(&mut script, rng, table, &rows, 1);
        }
        ask_some(&mut script, rng, table, &rows, 20);
        script.serve_sealed(&ask(1, 59, &part(table, &rows, 1)));
        script.quantity(table.into(), rows[0].level.into());
        lacking(&mut script, rng, (place, table), &rows);
    }
    script.show_all();
    script
}

/// Words that lack one part, some, all but one and all, with rows that never fall
/// and with others.
fn lacking(script: &mut Script, rng: &mut Rng, (place, table): (usize, u8), rows: &[Row]) {
    for falling in [false, true] {
        let mut rows = rows.to_vec();
        if falling {
            some_falls(script, rng, place, &mut rows);
        }
        for part in 0..11 {
            let two = 2047 & !(1 << part | 1 << rng.below(11));
            for word in [2047 ^ 1 << part, 1 << part, two, rng.below(2048) as u16] {
                script.word(place, word);
                ask_some(script, rng, table, &rows, 1);
            }
        }
        script.word(place, 0);
        ask_some(script, rng, table, &rows, 4);
        script.word(place, 2047);
        ask_some(script, rng, table, &rows, 10);
    }
}

/// All sixteen tables by frames, no two alike, with numbers of every kind.
pub fn every_table(rng: &mut Rng) -> Script {
    let mut script = Script::default();
    script.fresh(1);
    ask_numbers(&mut script, rng, 100);
    let mut tables = Vec::new();
    for (place, item) in ITEMS[..16].iter().enumerate() {
        let rows = good(rng);
        script.table(1, item.number, &rows, &IN_ORDER);
        ask_some(&mut script, rng, item.number, &rows, 10);
        tables.push((place, item.number, rows));
    }
    ask_numbers(&mut script, rng, 200);
    for (place, table, mut rows) in tables {
        ask_some(&mut script, rng, table, &rows, 10);
        let beside = (place + 8) % 16;
        script.word(beside, 2047 ^ 1 << rng.below(11));
        ask_some(&mut script, rng, table, &rows, 3);
        ask_some(&mut script, rng, ITEMS[beside].number, &rows, 2);
        script.word(beside, 2047);
        some_falls(&mut script, rng, place, &mut rows);
        ask_some(&mut script, rng, table, &rows, 2);
    }
    ask_numbers(&mut script, rng, 100);
    script.show_all();
    script
}

/// Numbers of tables and of none, about the limits and with upper bits.
fn ask_numbers(script: &mut Script, rng: &mut Rng, count: usize) {
    for number in [0, 9, 10, 19, 258, 268, 65_537, u32::MAX] {
        script.quantity(number, any_level(rng));
    }
    for _ in 0..count {
        let number = match rng.below(8) {
            0 => rng.below(22) as u32,
            1 => u32::from(rng.byte()),
            _ => {
                let table = u32::from(any_table(rng).1);
                table + (u32::from(rng.between(1, 255)) << rng.pick(&[5, 8, 16, 24]))
            }
        };
        let wide = u32::from(any_table(rng).1) + (1 << 31);
        let turned = u32::from(any_table(rng).1) << 24;
        let number = rng.pick(&[number, number, number, wide, turned]);
        script.quantity(number, any_level(rng));
    }
}

fn any_level(rng: &mut Rng) -> u32 {
    match rng.below(4) {
        0 => rng.pick(&[0, 1, 65_535, 65_536, u32::MAX]),
        1 => (rng.below(65_536) << rng.below(17)) as u32,
        _ => rng.below(65_536) as u32,
    }
}

/// Two rows between which the volume rises by all there is or nearly so, and two
/// with the highest volume.
const STEEP: [[Row; 2]; 8] = [
    [Row::new(0, 0), Row::new(65_535, 65_535)],
    [Row::new(1, 0), Row::new(65_535, 65_535)],
    [Row::new(0, 1), Row::new(65_535, 65_535)],
    [Row::new(0, 0), Row::new(65_533, 65_535)],
    [Row::new(700, 0), Row::new(701, 65_535)],
    [Row::new(700, 1), Row::new(702, 65_535)],
    [Row::new(700, 0), Row::new(703, 65_534)],
    [Row::new(700, 65_535), Row::new(800, 65_535)],
];

/// Highest and lowest values: two rows that are not like all the others, by hand
/// on images full of a byte, rows of zeros at the end, and steep tables.
pub fn extremes(rng: &mut Rng) -> Script {
    let mut script = Script::default();
    for byte in [0x00, 0xFF, 0x21, rng.between(22, 254)] {
        whole_image(&mut script, byte);
        two_rows(&mut script, rng, byte);
    }
    for place in 0..4 {
        let last = 1 + rng.below(5);
        let zeros = vec![Row::new(0, 0); last];
        let offset = TABLES + 1408 * place + 4 * (ROWS - last);
        script.poke_all(offset, &bytes(&zeros));
        for _ in 0..5 {
            script.quantity(place as u32 + 1, any_level(rng));
        }
    }
    script.fresh(1);
    for [low, high] in STEEP {
        let (rows, (_, table)) = (one_rise(rng, low, high), any_table(rng));
        script.table(1, table, &rows, &IN_ORDER);
        ask_some(&mut script, rng, table, &rows, 40);
        for below in 1..5 {
            script.quantity(table.into(), u32::from(high.level) - below);
        }
    }
    script.show_all();
    script
}

/// Tables in which the first row is lower than the others, and the last higher.
fn two_rows(script: &mut Script, rng: &mut Rng, byte: u8) {
    let row = Row::new(u16::from(byte) * 257, u16::from(byte) * 257);
    for _ in 0..25 {
        let (place, table) = any_table(rng);
        script.quantity(table.into(), row.level.into());
        let mut rows = vec![row; ROWS];
        let (low, high) = (any_row(rng, row, false), any_row(rng, row, true));
        (rows[0], rows[ROWS - 1]) = (low, high);
        script.row(place, 0, low).row(place, ROWS - 1, high);
        ask_some(script, rng, table, &rows, 8);
    }
}

/// A usable image full of a byte, with all parts of all tables.
fn whole_image(script: &mut Script, byte: u8) {
    script.fill(byte).poke_all(0, b"IZK\x00\x02\x01");
    script.poke_all(WORDS, &[0x07, 0xFF].repeat(16));
    for table in 0..8 {
        script.poke(ERRORS + 64 * table, 21);
    }
}

/// A row that is not above another in anything, or not below it. Half of its
/// numbers are as low or as high as can be, or the other's.
fn any_row(rng: &mut Rng, row: Row, above: bool) -> Row {
    let mut number = |number: u16| {
        let room = if above { 65_535 - number } else { number };
        let any = rng.below(usize::from(room) + 1) as u16;
        let by = rng.pick(&[any, any, any, 0, 1, room, room]).min(room);
        if above {
            number + by
        } else {
            number - by
        }
    };
    Row::new(number(row.level), number(row.volume))
}

/// Bytes that make an image not usable, where they stand, and those that belong
/// there, of an image with all parts of all tables.
fn spoils(rng: &mut Rng) -> Vec<(usize, Vec<u8>, Vec<u8>)> {
    let mut spoils = Vec::new();
    for (offset, letter) in b"IZK".iter().enumerate() {
        let other = letter.wrapping_add(rng.between(1, 255));
        spoils.push((offset, vec![other], vec![*letter]));
    }
    for version in [[0, 1], [0, 3], [rng.between(1, 255), 2]] {
        spoils.push((3, version.to_vec(), vec![0, 2]));
    }
    spoils.push((5, vec![0], vec![1]));
    for table in 0..8 {
        let count = rng.between(22, 255);
        spoils.push((ERRORS + 64 * table, vec![rng.pick(&[22, count])], vec![0]));
    }
    for place in 0..16 {
        // All eleven bits and one more, or one that is higher, or not all.
        let high = [0x08, 0x87, 0x0F, 0x17][place % 4];
        spoils.push((WORDS + 2 * place, vec![high, 0xFF], vec![0x07, 0xFF]));
    }
    spoils
}

/// Questions that would be answered or refused otherwise on images that are not
/// usable, for one thing and for two.
pub fn unusable(rng: &mut Rng) -> Script {
    let mut script = Script::default();
    whole_image(&mut script, 0x00);
    let rows = strict(rng);
    script.poke_all(TABLES + 1408 * 2, &bytes(&rows));
    let mut lower = rows.clone();
    script.poke_all(TABLES + 1408 * 9, &bytes(&rows));
    some_falls(&mut script, rng, 9, &mut lower);
    let all = |script: &mut Script, rng: &mut Rng| {
        ask_some(script, rng, 3, &rows, 3);
        ask_some(script, rng, 12, &rows, 2);
        script.quantity(rng.pick(&[0, 9, 10, 19, 259]), any_level(rng));
    };
    for (offset, bad, right) in spoils(rng) {
        script.poke_all(offset, &bad);
        all(&mut script, rng);
        script.word(2, 1023).word(9, 2046);
        all(&mut script, rng);
        script.word(2, 2047).word(9, 2047).poke_all(offset, &right);
        all(&mut script, rng);
    }
    for length in [0, 17, 2633, 23_752, 23_753, 23_816, 23_818, 24_000] {
        script.image_length(length);
        all(&mut script, rng);
    }
    script.poke(4, 1).image_length(23_753); // a usable image of version 1
    all(&mut script, rng);
    script.poke(4, 2).image_length(IMAGE_BYTES);
    all(&mut script, rng);
    script.show_all();
    script
}

/// Tables that are written, changed and written over, with all other calls
/// between.
pub fn among_others(rng: &mut Rng) -> Script {
    let mut script = Script::default();
    let address = rng.pick(&[1, 0xCE, 0x80]);
    script.fresh(address);
    old_bytes(&mut script, rng);
    for round in 0..9 {
        about(&mut script, rng, address);
        for command in [rng.pick(&COMMANDS), rng.pick(&COMMANDS)] {
            let frame = ask(address, command, &good_data(rng, command));
            script.serve_sealed(&frame).serve(&frame);
        }
        match round % 3 {
            0 => moves::about(&mut script, rng, address),
            1 => drop(script.poke_all(items::WORDS.start, &rng.bytes(4))),
            _ => drop(script.held(rng.below(20) as u32)),
        }
        script.quantity(rng.below(20) as u32, any_level(rng));
    }
    script.fresh(address).quantity(1, 0).show_all();
    script
}

/// A table among calls by chance, by frames, with a few questions; some of its
/// rows may fall, and a part of it may be written over.
pub fn about(script: &mut Script, rng: &mut Rng, address: u8) {
    let (mut rows, (place, table)) = (good(rng), any_table(rng));
    let order = any_order(rng);
    script.table(address, table, &rows, &order);
    ask_some(script, rng, table, &rows, 6);
    if rng.percent(40) {
        some_falls(script, rng, place, &mut rows);
        ask_some(script, rng, table, &rows, 3);
    }
    let other = good(rng);
    let frame = ask(address, 59, &part(table, &other, rng.between(1, 11)));
    script.serve_sealed(&frame);
    ask_some(script, rng, table, &rows, 2);
    if rng.percent(40) {
        script.serve(&frame);
        ask_some(script, rng, table, &other, 3);
    }
    script.quantity(rng.below(22) as u32, any_level(rng));
}
