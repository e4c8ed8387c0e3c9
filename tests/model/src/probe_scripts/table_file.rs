//! Scripts of document 02, wish 10: table files that are accepted, files with one
//! thing wrong at each place, files with two things wrong, and accepted files
//! that are sent, with questions behind them.

use super::{moves, Case, Script};
use crate::probe::{Then, SCRIPT_MAX};
use crate::streams::{ask, either_case, frame, good_data, Rng, COMMANDS};
use crate::table_files::{any_last, any_order, is_inside, some_steps, Change, Draft, Letters};
use crate::table_files::{Named, Where, LIMITS, PARTS, PIECES, ROW_CHANGES, TABLE_NUMBERS, WRITES};
use crate::tables::{all_levels, climbing, level, Row, ROWS};

/// How many accepted files a script has room for.
const FILES: usize = 21;
/// In how many scripts there are files with one thing wrong.
const ONE_WRONG: usize = 20;

/// Rows up to which the first files of such a script climb.
const LASTS: [usize; 12] = [1, 2, 3, 31, 32, 33, 64, 65, 320, 350, 351, 352];

/// All but the first files.
pub const CASES: [Case; 39] = [
    ("table files, accepted", accepted),
    ("table files, accepted", accepted),
    ("table files, accepted", accepted),
    ("table files, accepted", accepted),
    ("table files, accepted", accepted),
    ("table files, one thing wrong", one_wrong::<0>),
    ("table files, one thing wrong", one_wrong::<1>),
    ("table files, one thing wrong", one_wrong::<2>),
    ("table files, one thing wrong", one_wrong::<3>),
    ("table files, one thing wrong", one_wrong::<4>),
    ("table files, one thing wrong", one_wrong::<5>),
    ("table files, one thing wrong", one_wrong::<6>),
    ("table files, one thing wrong", one_wrong::<7>),
    ("table files, one thing wrong", one_wrong::<8>),
    ("table files, one thing wrong", one_wrong::<9>),
    ("table files, one thing wrong", one_wrong::<10>),
    ("table files, one thing wrong", one_wrong::<11>),
    ("table files, one thing wrong", one_wrong::<12>),
    ("table files, one thing wrong", one_wrong::<13>),
    ("table files, one thing wrong", one_wrong::<14>),
    ("table files, one thing wrong", one_wrong::<15>),
    ("table files, one thing wrong", one_wrong::<16>),
    ("table files, one thing wrong", one_wrong::<17>),
    ("table files, one thing wrong", one_wrong::<18>),
    ("table files, one thing wrong", one_wrong::<19>),
    ("table files, two things wrong", two_wrong),
    ("table files, two things wrong", two_wrong),
    ("table files, two things wrong", two_wrong),
    ("table files, two things wrong", two_wrong),
    ("table files, two things wrong", two_wrong),
    ("table files, sent", sent),
    ("table files, sent", sent),
    ("table files, sent", sent),
    ("table files, sent", sent),
    ("table files, sent", sent),
    ("table files, sent, every row", sent_every_row),
    ("table files, sent, every row", sent_every_row),
    ("table files, among other calls", among_others),
    ("table file, the longest", longest),
];

impl Script {
    /// Checks these bytes as a table file.
    pub fn table_file(&mut self, file: &[u8]) -> &mut Self {
        self.counted(b'C', file)
    }

    /// The same, if the script has room for it.
    fn table_file_if_room(&mut self, file: &[u8]) -> &mut Self {
        if self.0.len() + 3 + file.len() <= SCRIPT_MAX {
            self.table_file(file);
        }
        self
    }
}

/// Levels 100, 200 and so on, volumes 150, 300 and so on.
fn even() -> Vec<Row> {
    (1..=352)
        .map(|row| Row::new(100 * row, 150 * row))
        .collect()
}

/// Always the same few files, at which faults are planted.
pub fn first_files(rng: &mut Rng) -> Script {
    let mut script = Script::default();
    let draft = Draft {
        address: 1,
        table: 1,
        rows: even(),
        order: (1..=11).rev().collect(),
        letters: Letters::Capital,
    };
    let pieces = draft.pieces(rng);
    let file = pieces.concat();
    // From the last part to the first, and then without the last 0Ah.
    script.table_file(&file).table_file(&file[..2958]);
    // The first frame has another command, and the last one another checksum.
    let mut both = pieces.clone();
    both[0] = frame(&[1, 60, 1, 11]);
    both[10][266] = if both[10][266] == b'0' { b'1' } else { b'0' };
    script.table_file(&both.concat());
    // The same without the second fault; then rows with one that repeats another.
    both[10] = pieces[10].clone();
    script.table_file(&both.concat());
    let mut repeats = draft.clone();
    repeats.rows[200] = repeats.rows[199];
    script.table_file(&repeats.file(rng, &[]));
    script.table_file(b"").fresh(1);
    for piece in &pieces {
        script.serve(piece).table_file(piece);
    }
    script.held(1).table_file(&file);
    script.serve(&ask(1, 50, &[])).quantity(1, 199);
    script
}

/// Accepted files: each table, rows about each limit, addresses of every kind, and
/// letters in either case.
fn accepted(rng: &mut Rng) -> Script {
    let mut script = Script::default();
    for place in 0..FILES {
        let any = any_last(rng);
        let last = LASTS.get(place).copied().unwrap_or(any);
        let mut draft = Draft::any(rng);
        draft.rows = climbing(rng, last);
        draft.table = TABLE_NUMBERS[place % 16];
        draft.letters = [Letters::Capital, Letters::Small, Letters::Either][place % 3];
        if place % 7 == 6 {
            draft.order = any_order(rng);
        }
        script.table_file_if_room(&draft.file(rng, &[]));
    }
    script
}

/// How many files have one thing wrong.
#[cfg(test)]
pub fn one_wrong_files() -> usize {
    all_wrong(&mut Rng::new(0, 0)).len()
}

/// All that can be wrong, at each place at which it can be.
fn all_wrong(rng: &mut Rng) -> Vec<(Change, usize)> {
    let mut all = Vec::new();
    for (_, _, change) in PIECES.iter().chain(&WRITES).chain(&PARTS) {
        all.extend(Where::ALL.map(|place| (*change, place.frame(rng))));
    }
    for (_, _, change) in &ROW_CHANGES {
        all.extend(some_steps(rng).map(|step| (*change, step)));
    }
    all.extend(LIMITS.map(|(_, _, change)| (change, 0)));
    all
}

/// One thing wrong in each file, or nearly so. Neighbours in the list stand in
/// other scripts, so that the longest files are not all in one.
fn one_wrong<const SCRIPT: usize>(rng: &mut Rng) -> Script {
    let mut script = Script::default();
    let all = all_wrong(rng);
    for change in all.into_iter().skip(SCRIPT).step_by(ONE_WRONG) {
        let file = Draft::any(rng).file(rng, &[change]);
        script.table_file_if_room(&file);
    }
    script
}

/// A change for a number, at a frame.
fn change_for(rng: &mut Rng, number: u8) -> Change {
    let list: &[Named] = match number {
        17 => &PIECES,
        18 => &WRITES,
        19 => &PARTS,
        _ => return Change::Rows(is_inside),
    };
    rng.pick(list).2
}

/// Two things wrong in each file, the one with the lower number before the other
/// and behind it, and at times all four.
fn two_wrong(rng: &mut Rng) -> Script {
    let mut script = Script::default();
    let pairs = [[20, 17], [20, 18], [20, 19], [19, 17], [19, 18], [18, 17]];
    for round in 0..FILES - 1 {
        let [high, low] = pairs[round % 6];
        let (early, late) = (rng.below(10), 1 + rng.below(10));
        let late = if late <= early { early + 1 } else { late };
        let (of_high, of_low) = match round / 6 % 2 {
            0 => (early, late),
            _ => (late, early),
        };
        let mut changes = vec![
            (change_for(rng, high), of_high),
            (change_for(rng, low), of_low),
        ];
        if round >= 18 {
            changes = [20, 19, 18, 17]
                .map(|number| (change_for(rng, number), rng.below(11)))
                .to_vec();
        }
        let file = Draft::any(rng).file(rng, &changes);
        script.table_file_if_room(&file);
    }
    script
}

/// Frames of a file, one after the other, in any order.
fn shuffled(rng: &mut Rng, mut pieces: Vec<Vec<u8>>) -> Vec<Vec<u8>> {
    for last in (1..pieces.len()).rev() {
        pieces.swap(last, rng.below(last + 1));
    }
    pieces
}

/// Checks an accepted file, sends it to a fresh image of its address, and asks.
fn send(script: &mut Script, rng: &mut Rng, draft: &Draft) {
    let pieces = draft.pieces(rng);
    script.output(269, rng.byte()).table_file(&pieces.concat());
    script.fresh(draft.address);
    let pieces = match rng.percent(20) {
        true => pieces,
        false => shuffled(rng, pieces),
    };
    for piece in &pieces {
        script.serve(piece);
        if rng.percent(15) {
            // What is checked between is not sent, be it good or not.
            script.table_file(&piece[..rng.below(piece.len() + 1)]);
        }
    }
    script.held(draft.table.into());
}

/// Levels below row 1, at the ends, above row 352, and any others.
fn ask_ends(script: &mut Script, rng: &mut Rng, draft: &Draft, count: usize) {
    let table = u32::from(draft.table);
    let [first, last] = [0, ROWS - 1].map(|row| u32::from(draft.rows[row].level));
    for level in [
        0,
        first.saturating_sub(1),
        first,
        last,
        last + 1,
        65_535,
        65_536,
    ] {
        script.quantity(table, level);
    }
    for _ in 0..count {
        script.quantity(table, level(rng, &draft.rows));
    }
}

/// Accepted files that are sent, with questions at all kinds of levels.
fn sent(rng: &mut Rng) -> Script {
    let mut script = Script::default();
    for place in 0..8 {
        let mut draft = Draft::any(rng);
        if place % 2 == 0 {
            let last = rng.pick(&[1, 2, 32, 33, 351, 352]);
            draft.rows = climbing(rng, last);
        }
        send(&mut script, rng, &draft);
        ask_ends(&mut script, rng, &draft, 80);
    }
    script.show_all();
    script
}

/// The same with the level of every row, those beside it and one between.
fn sent_every_row(rng: &mut Rng) -> Script {
    let mut script = Script::default();
    for last in [352, 100 + rng.below(200)] {
        let mut draft = Draft::any(rng);
        draft.rows = climbing(rng, last);
        send(&mut script, rng, &draft);
        for level in all_levels(rng, &draft.rows) {
            script.quantity(draft.table.into(), level);
        }
        ask_ends(&mut script, rng, &draft, 0);
    }
    script.show_all();
    script
}

/// Files between other calls, on images that are not usable, with outputs that
/// are too short, and off the line.
fn among_others(rng: &mut Rng) -> Script {
    let mut script = Script::default();
    for round in 0..4 {
        let draft = Draft::any(rng);
        let pieces = draft.pieces(rng);
        let file = pieces.concat();
        script.fresh(draft.address).table_file(&file);
        match round % 4 {
            0 => drop(script.poke(5, 0)),
            1 => drop(script.image_length(23_816)),
            2 => drop(script.output(rng.pick(&[0, 268]), rng.byte())),
            _ => drop(script.fill(0xFF)),
        }
        script.table_file(&file).serve(&pieces[0]);
        script.image_length(super::IMAGE_BYTES).fresh(draft.address);
        script.output(269, rng.byte());
        let (first, rest) = pieces.split_at(4);
        script
            .hear(Then::Serve, &first.concat())
            .table_file(&either_case(rng, file));
        for piece in rest {
            script.serve_sealed(piece).serve(piece);
        }
        script.held(draft.table.into());
        let command = rng.pick(&COMMANDS);
        script.serve(&ask(draft.address, command, &good_data(rng, command)));
        if round % 3 == 0 {
            moves::about(&mut script, rng, draft.address);
        }
    }
    script.show_all();
    script
}

/// One file that is as long as a script has room for.
fn longest(rng: &mut Rng) -> Script {
    let mut script = Script::default();
    let pieces = Draft::any(rng).pieces(rng);
    let mut file = pieces.concat().repeat(23);
    file.truncate(SCRIPT_MAX - 3);
    script.table_file(&file);
    script
}
