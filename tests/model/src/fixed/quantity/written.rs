//! Tables that are written by frames, with questions between them.

use super::{all_asked, asked, even_rows, shown, tables, word_at};
use crate::fixed::{fresh, serve, serve_sealed, Session, Step};
use crate::items::item;
use crate::streams::ask;
use crate::tables::{part, Row, ROWS};

pub fn sessions() -> Vec<Session> {
    vec![
        Session::new("quantity, between writes", between_writes()),
        Session::new("quantity, written again", written_again()),
        Session::new("quantity, parts in another place", parts_in_another_place()),
        Session::new("quantity, sixteen tables", sixteen_tables()),
    ]
}

/// A table that was empty and is written part by part.
pub struct Writer {
    table: u8,
    stored: Vec<u8>,
    word: u16,
}

impl Writer {
    pub fn new(table: u8) -> Self {
        Writer {
            table,
            stored: vec![0; 4 * ROWS],
            word: 0,
        }
    }

    /// Writes a part of these rows.
    pub fn write(&mut self, number: u8, rows: &[Row]) -> Step {
        let data = part(self.table, rows, number);
        let first = 128 * usize::from(number - 1);
        self.stored[first..first + 128].copy_from_slice(&data[2..]);
        self.word |= 1 << (number - 1);
        let offset = item(59, self.table).expect("a table").offset;
        serve("a part", &ask(1, 59, &data))
            .writes(&ask(1, 59, &[self.table, number]))
            .stores(offset + first, &data[2..])
            .stores(word_at(self.table), &self.word.to_be_bytes())
            .signs(59, self.table, &self.stored)
    }
}

/// All eleven parts of a table that was empty.
pub fn whole(table: u8, rows: &[Row]) -> Vec<Step> {
    let mut writer = Writer::new(table);
    (1..=11).map(|number| writer.write(number, rows)).collect()
}

/// The last part comes first. Until the first one has come the table is not whole,
/// be the rows of the others there or not.
fn between_writes() -> Vec<Step> {
    let (mut writer, rows) = (Writer::new(15), even_rows());
    let mut steps = vec![asked("no part", 15, 0).refused(12)];
    for number in (2..=11).rev() {
        steps.push(writer.write(number, &rows));
        steps.push(asked("not all parts", 15, 35_200).refused(12));
        steps.push(asked("not all parts", 5, 35_200).refused(12));
    }
    steps.push(writer.write(11, &rows));
    steps.push(asked("a part twice", 15, 35_200).refused(12));
    let sealed = ask(1, 59, &part(15, &rows, 1));
    steps.push(serve_sealed("sealed", &sealed).refused(16));
    steps.push(asked("a part that was not written", 15, 35_200).refused(12));
    steps.push(writer.write(1, &rows));
    let outcomes = [
        (99, Err(14)),
        (100, Ok(150)),
        (3250, Ok(4875)),
        (35_200, Ok(52_800)),
        (35_201, Err(14)),
    ];
    steps.extend(all_asked("all parts", 15, &outcomes));
    steps.push(asked("not table 5", 5, 100).refused(12));
    steps.push(shown());
    steps.extend(laid_out_anew());
    steps
}

/// A fresh image holds no part.
fn laid_out_anew() -> Vec<Step> {
    let mut image = [0; 23_817];
    image[..6].copy_from_slice(b"IZK\x00\x02\x01");
    vec![
        fresh("a fresh image", 1).stores(0, &image),
        asked("no part any more", 15, 100).refused(12),
        asked("no part any more", 15, 0).refused(12),
    ]
}

/// Parts of a whole table are written again, sealed and unsealed. With row 1 at
/// level 50 and volume 100, level 75 adds 200 times 25 by 150, which is 33 and a
/// third.
fn written_again() -> Vec<Step> {
    let (mut writer, rows) = (Writer::new(5), even_rows());
    let mut steps: Vec<Step> = (1..=11).map(|number| writer.write(number, &rows)).collect();
    let as_before = || all_asked("as before", 5, &[(150, Ok(225)), (75, Err(14))]);
    let mut lower = rows.clone();
    lower[0] = Row::new(50, 100);
    let sealed = ask(1, 59, &part(5, &lower, 1));
    steps.extend(as_before());
    steps.push(serve_sealed("sealed", &sealed).refused(16));
    steps.extend(as_before());
    steps.push(writer.write(1, &lower));
    // Level 150 adds 200 times 100 by 150, which is 133 and a third.
    let outcomes = [(49, Err(14)), (50, Ok(100)), (75, Ok(133)), (150, Ok(233))];
    steps.extend(all_asked("row 1 written again", 5, &outcomes));
    let empty = vec![Row::new(0, 0); ROWS];
    for number in [6, 11, 2] {
        steps.push(writer.write(number, &empty));
        steps.push(asked("a part of zeros", 5, 50).refused(13));
        let sealed = ask(1, 59, &part(5, &rows, number));
        steps.push(serve_sealed("sealed", &sealed).refused(16));
        steps.push(asked("a part of zeros", 5, 50).refused(13));
        steps.push(writer.write(number, &rows));
        steps.extend(all_asked("mended", 5, &outcomes));
    }
    steps.push(writer.write(1, &rows));
    steps.extend(as_before());
    steps.push(shown());
    steps
}

/// The rows of two parts the other way round fall, whichever parts these are.
fn parts_in_another_place() -> Vec<Step> {
    let (mut writer, rows) = (Writer::new(8), even_rows());
    let mut steps: Vec<Step> = (1..=11).map(|number| writer.write(number, &rows)).collect();
    for [one, other] in [[1, 2], [10, 11], [2, 10], [1, 11]] {
        let mut turned = rows.clone();
        for row in 0..32 {
            turned.swap(32 * (one - 1) + row, 32 * (other - 1) + row);
        }
        steps.push(writer.write(one as u8, &turned));
        steps.push(asked("the rows of another part", 8, 16_000).refused(13));
        steps.push(writer.write(other as u8, &turned));
        steps.push(asked("two parts the other way round", 8, 16_000).refused(13));
        steps.push(writer.write(one as u8, &rows));
        steps.push(asked("the rows of another part", 8, 16_000).refused(13));
        steps.push(writer.write(other as u8, &rows));
        steps.push(asked("in order", 8, 16_000).answers(24_000));
    }
    steps
}

/// Each table has its own: level 100, 200 and so on, and the table's number times
/// 1, 2 and so on.
fn sixteen_tables() -> Vec<Step> {
    let mut steps = Vec::new();
    for table in tables() {
        let row = |row: u16| Row::new(100 * row, u16::from(table) * row);
        let rows: Vec<Row> = (1..=352).map(row).collect();
        steps.extend(whole(table, &rows));
        let number = u16::from(table);
        // Halfway from row 8 to row 9.
        let outcomes = [
            (100, Ok(number)),
            (850, Ok(8 * number + number / 2)),
            (35_200, Ok(352 * number)),
        ];
        steps.extend(all_asked("its own rows", table, &outcomes));
    }
    for table in tables() {
        let number = u16::from(table);
        steps.extend(all_asked("still its own", table, &[(100, Ok(number))]));
    }
    steps
}
