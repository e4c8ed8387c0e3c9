//! Files by what is in them. Each name begins with the number that they get.

use super::file::{bytes, File, Piece, ADDRESS, COMMAND, PART, TABLE};
use crate::tables::{Row as TableRow, PART_ROWS};

/// What a file has, and whether one has it.
pub type Row = (&'static str, fn(&File) -> bool);

/// What a file has at one frame and nothing else wrong, and at which frames.
pub type AtFrame = (&'static str, fn(&File) -> Vec<usize>);

/// Where a frame stands in its file.
pub const FRAMES: [&str; 3] = ["first", "middle", "last"];

pub fn frame_column(place: usize) -> usize {
    match place {
        0 => 0,
        10.. => 2,
        _ => 1,
    }
}

/// What a file has at a step from a row to the next, at which steps, and the first
/// of the columns that it can have.
pub struct AtStep {
    pub name: &'static str,
    pub steps: fn(&File) -> Vec<usize>,
    pub from: usize,
}

/// Where a step stands in its table.
pub const STEPS: [&str; 4] = ["step 1", "in a part", "between", "step 351"];

pub fn step_column(step: usize) -> usize {
    match step {
        1 => 0,
        351 => 3,
        step if step % PART_ROWS == 0 => 2,
        _ => 1,
    }
}

pub const AT_FRAMES: [AtFrame; 24] = [
    ("17, an even length", |file| {
        bad(file, 3, |text| (9..269).contains(&text.len()))
    }),
    ("17, two characters too long", |file| {
        bad(file, 3, |text| text.len() == 271)
    }),
    ("17, two characters too short", |file| {
        bad(file, 3, |text| text.len() == 7)
    }),
    ("17, the first byte", |file| {
        bad(file, 4, |text| text.ends_with(b"\r\n"))
    }),
    ("17, the last byte but one", |file| {
        bad(file, 4, |text| text[0] == b':' && text.ends_with(b"\n"))
    }),
    ("17, no digit", |file| bad(file, 5, |_| true)),
    ("17, the first digit no digit", |file| {
        bad(file, 5, |text| !text[1].is_ascii_hexdigit())
    }),
    ("17, the last digit no digit", |file| {
        bad(file, 5, |text| !text[text.len() - 3].is_ascii_hexdigit())
    }),
    ("17, the checksum", |file| bad(file, 6, |_| true)),
    ("17, 0Ah alone", |file| more(file, b"\n")),
    ("17, 0Dh 0Ah alone", |file| more(file, b"\r\n")),
    ("18, command 58", |file| {
        other(file, COMMAND, |command, _| command == 58)
    }),
    ("18, command 60", |file| {
        other(file, COMMAND, |command, _| command == 60)
    }),
    ("18, another command", |file| {
        other(file, COMMAND, |command, _| !(58..=60).contains(&command))
    }),
    ("18, a body of 132 bytes", |file| length(file, 131..=131)),
    ("18, a body of 131 bytes", |file| length(file, 130..=130)),
    ("18, a shorter body", |file| length(file, 0..=129)),
    ("18, another address", |file| {
        other(file, ADDRESS, |address, _| address != 0)
    }),
    ("18, address 0", |file| {
        other(file, ADDRESS, |address, _| address == 0)
    }),
    ("18, another table", |file| {
        other(file, TABLE, |table, _| is_table(table))
    }),
    ("18, a table 10 above or below", |file| {
        other(file, TABLE, |table, others| {
            is_table(table) && table.abs_diff(others) == 10
        })
    }),
    ("18, no table", |file| {
        other(file, TABLE, |table, _| !is_table(table))
    }),
    ("19, no part", no_part),
    ("19, a part twice", twice),
];

pub const AT_STEPS: [AtStep; 8] = [
    AtStep {
        name: "20, a level falls",
        steps: |file| only(file, &file.steps.level_falls),
        from: 0,
    },
    AtStep {
        name: "20, a volume falls",
        steps: |file| only(file, &file.steps.volume_falls),
        from: 0,
    },
    AtStep {
        name: "20, a volume rises and the level stays",
        steps: |file| only(file, &file.steps.volume_alone),
        from: 0,
    },
    AtStep {
        name: "20, a rise behind a repeated row",
        steps: |file| {
            let steps = &file.steps;
            let falls = steps.level_falls.len() + steps.volume_falls.len();
            match file.number == 20 && falls + steps.volume_alone.len() == 0 {
                true => steps.behind_repeats.first().into_iter().copied().collect(),
                false => Vec::new(),
            }
        },
        from: 1,
    },
    AtStep {
        name: "0, a level higher by 1",
        steps: |file| accepted(file, &file.steps.by_1),
        from: 0,
    },
    AtStep {
        name: "0, a level rises and the volume stays",
        steps: |file| accepted(file, &file.steps.level_alone),
        from: 0,
    },
    AtStep {
        name: "0, the last rise",
        steps: |file| match file.last() {
            0 | 1 => Vec::new(),
            last => vec![last - 1],
        },
        from: 0,
    },
    AtStep {
        name: "0, the first repeat",
        steps: |file| {
            let first = file.steps.repeats.first();
            accepted(file, first.map_or(&[], std::slice::from_ref))
        },
        from: 0,
    },
];

pub const ROWS: [Row; 89] = [
    ("0, climbing to row 1", |file| file.last() == 1),
    ("0, to row 2", |file| file.last() == 2),
    ("0, to row 3 to 31", |file| (3..32).contains(&file.last())),
    ("0, to row 32", |file| file.last() == 32),
    ("0, to row 33", |file| file.last() == 33),
    ("0, to row 34 to 350", |file| {
        (34..351).contains(&file.last())
    }),
    ("0, to row 351", |file| file.last() == 351),
    ("0, to row 352", |file| file.last() == 352),
    ("0, parts in order", |file| {
        file.number == 0 && file.parts().is_sorted()
    }),
    ("0, parts backwards", |file| {
        file.number == 0 && file.parts().is_sorted_by(|part, next| part > next)
    }),
    ("0, parts in another order", |file| {
        let parts = file.parts();
        file.number == 0 && !parts.is_sorted() && !parts.is_sorted_by(|part, next| part > next)
    }),
    ("0, part 1 last", |file| {
        file.number == 0 && file.parts().last() == Some(&Some(1))
    }),
    ("0, part 11 first", |file| {
        file.number == 0 && file.parts()[0] == Some(11)
    }),
    ("0, rows out of order in the file", |file| {
        file.number == 0 && !climbs(&file.rows_of_file())
    }),
    ("0, no letter small", |file| {
        file.number == 0 && !has_small(file) && has_capital(file)
    }),
    ("0, all letters small", |file| {
        file.number == 0 && has_small(file) && !has_capital(file)
    }),
    ("0, letters of both kinds", |file| {
        file.number == 0 && has_small(file) && has_capital(file)
    }),
    ("0, both kinds in one byte", |file| {
        file.number == 0 && file.pieces.iter().any(|piece| has_both(piece.text))
    }),
    ("0, address 1", |file| address(file, 1..=1)),
    ("0, address 59", |file| address(file, 59..=59)),
    ("0, address 2 to 127", |file| address(file, 2..=127)),
    ("0, address 128", |file| address(file, 128..=128)),
    ("0, address 129 to 254", |file| address(file, 129..=254)),
    ("0, address 255", |file| address(file, 255..=255)),
    ("0, address and table the same number", |file| {
        file.number == 0 && file.pieces[0].byte(ADDRESS) == file.pieces[0].byte(TABLE)
    }),
    ("0, level 0 in row 1", |file| {
        file.number == 0 && file.rows[0].level == 0
    }),
    ("0, level 65,535 in row 352", |file| {
        file.number == 0 && file.rows[351].level == 65_535
    }),
    ("0, volume 0 in row 352", |file| {
        file.number == 0 && file.rows[351].volume == 0
    }),
    ("0, volume 65,535 in row 1", |file| {
        file.number == 0 && file.rows[0].volume == 65_535
    }),
    ("0, from 0 to 65,535 in one step", |file| {
        file.number == 0 && any_pair(file, |row, next| [row.level, next.level] == [0, 65_535])
    }),
    ("0, all rows zeros", |file| {
        file.number == 0 && file.rows.iter().all(|row| *row == TableRow::new(0, 0))
    }),
    ("0, all rows FFh", |file| {
        let full = TableRow::new(65_535, 65_535);
        file.number == 0 && file.rows.iter().all(|row| *row == full)
    }),
    ("0, all volumes alike, not all levels", |file| {
        let volume = |row: &TableRow| row.volume == file.rows[0].volume;
        file.last() > 1 && file.rows.iter().all(volume)
    }),
    ("0, levels past 32,767", |file| {
        file.number == 0 && any_pair(file, |row, next| row.level < 32_768 && next.level >= 32_768)
    }),
    ("0, volumes past 32,767", |file| {
        file.number == 0
            && any_pair(file, |row, next| {
                row.volume < 32_768 && next.volume >= 32_768
            })
    }),
    ("0, a level with a lower low byte", |file| {
        file.number == 0 && any_pair(file, |row, next| (next.level as u8) < row.level as u8)
    }),
    ("17, no byte", |file| {
        file.number == 17 && file.bytes.is_empty()
    }),
    ("17, 0Ah and no more", |file| {
        file.number == 17 && file.bytes == b"\n"
    }),
    ("17, one frame", |file| count(file, 1, 1)),
    ("17, ten frames", |file| count(file, 10, 10)),
    ("17, ten frames and another piece", |file| {
        count(file, 11, 10)
    }),
    ("17, twelve frames", |file| count(file, 12, 12)),
    ("17, eleven frames and another piece", |file| {
        count(file, 12, 11)
    }),
    ("17, ten frames and two pieces", |file| count(file, 12, 10)),
    ("17, eleven pieces that are no frames", |file| {
        count(file, 11, 0)
    }),
    ("17, more than 12 frames", |file| {
        file.number == 17 && file.good() > 12
    }),
    ("17, a file of 2,958 bytes", |file| {
        file.number == 17 && file.bytes.len() == 2958
    }),
    ("17, a file of 2,959 bytes", |file| {
        file.number == 17 && file.bytes.len() == 2959
    }),
    ("17, a file of 4,096 bytes", |file| {
        file.number == 17 && file.bytes.len() == 4096
    }),
    ("17, a file of 4,097 bytes", |file| {
        file.number == 17 && file.bytes.len() == 4097
    }),
    ("17, a longer file", |file| {
        file.number == 17 && file.bytes.len() > 4097
    }),
    ("17, a longer file, eleven frames first", |file| {
        let first = file.pieces.get(..11).unwrap_or_default();
        let good = !first.is_empty() && first.iter().all(|piece| piece.fault == 0);
        file.number == 17 && file.bytes.len() > 4097 && good
    }),
    ("17, the last 0Ah left out", |file| {
        file.bytes.ends_with(b"\r") && count(file, 11, 10) && last_text(file).len() == 268
    }),
    ("17, the last 0Dh 0Ah left out", |file| {
        count(file, 11, 10) && last_text(file).len() == 267 && !file.bytes.ends_with(b"\r")
    }),
    ("17, bytes without 0Ah behind", |file| {
        count(file, 12, 11) && !file.bytes.ends_with(b"\n")
    }),
    ("17, bytes with 0Ah behind", |file| {
        count(file, 12, 11) && file.bytes.ends_with(b"\n") && file.pieces[11].fault != 0
    }),
    ("17, two frames joined", |file| {
        let joined = |piece: &Piece| piece.text.len() > 500;
        count(file, 10, 9) && file.pieces.iter().any(joined)
    }),
    ("17, 0Ah inside a frame", |file| {
        let halves = file.pieces.windows(2).any(|pair| {
            let length = pair[0].text.len() + pair[1].text.len();
            length == 269 && pair[0].fault != 0 && pair[1].fault != 0
        });
        count(file, 12, 10) && halves
    }),
    ("17, 0Ah without 0Dh in all frames", |file| {
        count(file, 11, 0) && file.pieces.iter().all(|piece| piece.text.len() == 268)
    }),
    ("17, character 47 for a digit", |file| no_digit(file, 47)),
    ("17, character 58 for a digit", |file| no_digit(file, 58)),
    ("17, character 64 for a digit", |file| no_digit(file, 64)),
    ("17, character 71 for a digit", |file| no_digit(file, 71)),
    ("17, character 96 for a digit", |file| no_digit(file, 96)),
    ("17, character 103 for a digit", |file| no_digit(file, 103)),
    ("18, address 0 in all", |file| all_are(file, ADDRESS, 0..=0)),
    ("18, table 0 in all", |file| all_are(file, TABLE, 0..=0)),
    ("18, table 9 in all", |file| all_are(file, TABLE, 9..=9)),
    ("18, table 10 in all", |file| all_are(file, TABLE, 10..=10)),
    ("18, table 19 in all", |file| all_are(file, TABLE, 19..=19)),
    ("18, table 20 to 254 in all", |file| {
        all_are(file, TABLE, 20..=254)
    }),
    ("18, table 255 in all", |file| {
        all_are(file, TABLE, 255..=255)
    }),
    ("18, command 60 in all", |file| {
        all_are(file, COMMAND, 60..=60)
    }),
    ("18, bodies of 132 bytes in all", |file| {
        file.number == 18 && file.pieces.iter().all(|piece| piece.contents.len() == 131)
    }),
    ("18, two addresses by halves", |file| halves(file, ADDRESS)),
    ("18, two tables by halves", |file| halves(file, TABLE)),
    ("18, a length and a command", |file| {
        let read = |piece: &Piece| piece.byte(COMMAND) == Some(60) && piece.contents.len() == 4;
        file.number == 18 && file.pieces.iter().filter(|piece| read(piece)).count() == 1
    }),
    ("19, part 0", |file| outside(file, 0..=0)),
    ("19, part 12", |file| outside(file, 12..=12)),
    ("19, part 13 to 254", |file| outside(file, 13..=254)),
    ("19, part 255", |file| outside(file, 255..=255)),
    ("19, parts 0 to 10", |file| {
        file.number == 19 && parts_are(file, 0)
    }),
    ("19, parts 2 to 12", |file| {
        file.number == 19 && parts_are(file, 2)
    }),
    ("19, all parts alike", |file| {
        file.number == 19 && file.of_all(PART).is_some()
    }),
    ("19, a frame twice", |file| {
        let text = |place: usize| file.pieces[place].contents.clone();
        file.number == 19
            && twice(file)
                .first()
                .is_some_and(|&one| text(one) == text(twice(file)[1]))
    }),
    ("20, row 352 alone", |file| {
        file.number == 20 && file.steps.wrong() == [351]
    }),
    ("20, zeros from a row on", |file| {
        let zeros = TableRow::new(0, 0);
        file.number == 20 && file.rows[351] == zeros && file.rows[350] == zeros
    }),
    ("20, in order in the file", |file| {
        file.number == 20 && climbs(&file.rows_of_file())
    }),
    ("20, one row behind row n", |file| {
        let wrong = file.steps.wrong();
        let around = wrong.len() == 2 && wrong[1] == wrong[0] + 1;
        file.number == 20 && around && file.rows[wrong[0] - 1] == file.rows[wrong[1]]
    }),
];

/// The place of the only piece that is not good, of eleven, if it fails with this
/// number and looks like this.
fn bad(file: &File, fault: u8, fits: fn(&[u8]) -> bool) -> Vec<usize> {
    match file.one_bad() {
        Some((place, number)) if number == fault && file.pieces.len() == 11 => {
            let is_like_it = fits(file.pieces[place].text);
            Vec::from_iter(is_like_it.then_some(place))
        }
        _ => Vec::new(),
    }
}

/// The place of a piece like this among eleven good ones.
fn more(file: &File, text: &[u8]) -> Vec<usize> {
    let place = file.pieces.iter().position(|piece| piece.text == text);
    match file.pieces.len() == 12 && file.good() == 11 {
        true => Vec::from_iter(place),
        false => Vec::new(),
    }
}

fn is_table(table: u8) -> bool {
    matches!(table, 1..=8 | 11..=18)
}

const FIELDS: [usize; 3] = [ADDRESS, COMMAND, TABLE];

/// The place of the only frame that has another byte here, where all else that 18
/// is given for is right, if that byte and the others' are like this.
fn other(file: &File, byte: usize, fits: fn(u8, u8) -> bool) -> Vec<usize> {
    let lengths = file.pieces.iter().all(|piece| piece.contents.len() == 132);
    let alike = FIELDS.iter().filter(|&&field| file.of_all(field).is_some());
    let found = file
        .of_one(byte)
        .filter(|_| file.number == 18 && lengths && alike.count() == 2);
    match found {
        Some((place, Some(value), others)) if fits(value, others) => vec![place],
        _ => Vec::new(),
    }
}

/// The place of the only frame that has so many bytes of contents, where all
/// others have 132.
fn length(file: &File, lengths: std::ops::RangeInclusive<usize>) -> Vec<usize> {
    let of = |piece: &Piece| piece.contents.len();
    let mut others = (0..file.pieces.len()).filter(|&place| of(&file.pieces[place]) != 132);
    match (others.next(), others.next()) {
        (Some(place), None) if file.number == 18 => {
            Vec::from_iter(lengths.contains(&of(&file.pieces[place])).then_some(place))
        }
        _ => Vec::new(),
    }
}

/// The places of frames with a part outside 1..11, where the others are parts.
fn no_part(file: &File) -> Vec<usize> {
    if file.number != 19 {
        return Vec::new();
    }
    let parts = file.parts();
    let is_none = |&place: &usize| !matches!(parts[place], Some(1..=11));
    (0..parts.len()).filter(is_none).collect()
}

/// The places of two frames with one part, where there are no more such.
fn twice(file: &File) -> Vec<usize> {
    let parts = file.parts();
    let like = |place: &usize| parts.iter().filter(|part| **part == parts[*place]).count();
    let twice: Vec<usize> = (0..parts.len()).filter(|place| like(place) > 1).collect();
    match file.number == 19 && twice.len() == 2 {
        true => twice,
        false => Vec::new(),
    }
}

/// Whether the only part outside is one of these.
fn outside(file: &File, parts: std::ops::RangeInclusive<u8>) -> bool {
    let places = no_part(file);
    let is_one = |&place: &usize| {
        file.pieces[place]
            .byte(PART)
            .is_some_and(|part| parts.contains(&part))
    };
    places.len() == 1 && places.iter().all(is_one)
}

/// Whether the parts are eleven from this one on, in any order.
fn parts_are(file: &File, first: u8) -> bool {
    let mut parts = file.parts();
    parts.sort();
    parts.iter().copied().eq((first..first + 11).map(Some))
}

/// The only step for which 20 is given, if it is the only one of this list.
fn only(file: &File, list: &[usize]) -> Vec<usize> {
    match file.number == 20 && list.len() == 1 && file.steps.wrong() == list {
        true => list.to_vec(),
        false => Vec::new(),
    }
}

fn accepted(file: &File, list: &[usize]) -> Vec<usize> {
    match file.number {
        0 => list.to_vec(),
        _ => Vec::new(),
    }
}

/// Whether rows that are there climb, up to the last one.
fn climbs(rows: &[TableRow]) -> bool {
    let rises =
        |pair: &[TableRow]| pair[0].level < pair[1].level && pair[0].volume <= pair[1].volume;
    !rows.is_empty() && rows.windows(2).all(rises)
}

fn any_pair(file: &File, fits: fn(TableRow, TableRow) -> bool) -> bool {
    file.rows.windows(2).any(|pair| fits(pair[0], pair[1]))
}

fn has_small(file: &File) -> bool {
    file.bytes.iter().any(|byte| matches!(byte, b'a'..=b'f'))
}

fn has_capital(file: &File) -> bool {
    file.bytes.iter().any(|byte| matches!(byte, b'A'..=b'F'))
}

/// Whether a byte of this good frame is written in both kinds.
fn has_both(text: &[u8]) -> bool {
    text[1..].chunks_exact(2).any(|pair| {
        let small = |byte: u8| byte.is_ascii_lowercase();
        pair.iter().all(u8::is_ascii_alphabetic) && small(pair[0]) != small(pair[1])
    })
}

fn address(file: &File, addresses: std::ops::RangeInclusive<u8>) -> bool {
    let address = file.pieces.first().and_then(|piece| piece.byte(ADDRESS));
    file.number == 0 && address.is_some_and(|address| addresses.contains(&address))
}

/// Whether a file refused 17 has so many pieces, and so many good ones.
fn count(file: &File, pieces: usize, good: usize) -> bool {
    file.number == 17 && file.pieces.len() == pieces && file.good() == good
}

fn last_text<'a>(file: &'a File) -> &'a [u8] {
    file.pieces.last().map_or(&[], |piece| piece.text)
}

/// Whether one digit of one frame of eleven is this character.
fn no_digit(file: &File, character: u8) -> bool {
    let places = bad(file, 5, |_| true);
    places.iter().any(|&place| {
        let text = file.pieces[place].text;
        text[1..text.len() - 2].contains(&character)
    })
}

/// Whether a byte is the same in all frames, one of these, and nothing else is
/// what 18 is given for.
fn all_are(file: &File, byte: usize, values: std::ops::RangeInclusive<u8>) -> bool {
    let alike = FIELDS.iter().all(|&field| file.of_all(field).is_some());
    let value = file.of_all(byte);
    file.number == 18 && alike && value.is_some_and(|value| values.contains(&value))
}

/// Whether a byte is one in the first frames and another in the last ones, two or
/// more of each.
fn halves(file: &File, byte: usize) -> bool {
    let all = bytes(&file.pieces, byte);
    let changes = all.windows(2).filter(|pair| pair[0] != pair[1]).count();
    file.number == 18 && changes == 1 && all[0] == all[1] && all[9] == all[10]
}
