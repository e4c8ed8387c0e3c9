//! Questions that are refused, each number at its limits and before those behind
//! it.

use super::{answered, asked, behind, each_differently, even, even_rows, full_of, set_row};
use super::{set_rows, set_word, shown, tables, written, Change, Session, Step};
use crate::block::IMAGE_BYTES;
use crate::tables::{Row, ROWS};

pub fn sessions() -> Vec<Session> {
    vec![
        Session::new("quantity, table numbers", table_numbers()),
        Session::new("quantity, parts missing", parts_missing()),
        Session::new("quantity, levels fall at every step", levels_fall()),
        Session::new("quantity, volumes fall at every step", volumes_fall()),
        Session::new("quantity, falls of other kinds", other_falls()),
        Session::new("quantity, unusable images", unusable()),
        Session::new("quantity, 1 before all others", first_1()),
        Session::new("quantity, 10, 12, 13 and 14 in order", in_order()),
    ]
}

/// All tables are whole. Those that are none have a table's number behind upper
/// bits, or between 8 and 11, or about the ends.
fn table_numbers() -> Vec<Step> {
    let mut numbers = vec![0, 9, 10, 19, 20, 21, 22, 28, 255, 256];
    for base in [32, 128, 256, 512, 65_536, 1 << 24, 1 << 31, 0xFFFF_FF00] {
        numbers.extend([1, 2, 8, 10, 11, 12, 18].map(|table| base + table));
    }
    // Low byte first these would be tables 1, 2 and 12.
    numbers.extend([1 << 24, 2 << 24, 12 << 24, u32::MAX]);
    let mut steps = Vec::new();
    for number in numbers {
        for level in [8418, 8481, 65_536] {
            steps.push(asked("no table", number, level).refused(10));
        }
    }
    steps.extend(tables().flat_map(answered));
    steps.push(shown_of_21h());
    behind(&each_differently(), steps)
}

/// The mask is 21h, as all that is not judged.
fn shown_of_21h() -> Step {
    super::serve("the image stays", b":0132CD\r\n").replies(":013221AC")
}

/// Each part alone, each pair of neighbours, all but each part, and all. The
/// other tables are whole.
fn parts_missing() -> Vec<Step> {
    let mut steps = Vec::new();
    for table in [2, 18] {
        let mut lacks = |word| {
            let step = asked("a part missing", u32::from(table), 8481);
            steps.push(step.after(&[set_word(table, word)]).refused(12));
        };
        for part in 0..11 {
            lacks(2047 ^ 1 << part);
            lacks(2047 & !(3 << part));
            lacks(1 << part);
        }
        lacks(0);
        steps.extend(behind(&[set_word(table, 2047)], answered(table)));
    }
    behind(&each_differently(), steps)
}

/// The even table with one row that is another one, at each row from 2 on, and
/// then with none.
fn one_row_otherwise(table: u8, otherwise: fn(u16) -> Row) -> Vec<Step> {
    let mut steps = written::whole(table, &even_rows());
    for row in 1..=351 {
        let next = set_rows(table, usize::from(row) + 1, &[otherwise(row)]);
        let again = set_rows(table, usize::from(row), &[even(usize::from(row))]);
        // A row's level, one between two rows, or the last one.
        let level = match row % 3 {
            0 => 100 * u32::from(row),
            1 => 17_650,
            _ => 35_200,
        };
        let step = asked("a fall", u32::from(table), level).refused(13);
        steps.push(step.after(&[again, next]));
    }
    let again = set_rows(table, ROWS, &[even(ROWS)]);
    let none = asked("no fall", u32::from(table), 17_650);
    steps.push(none.after(&[again]).answers(26_475));
    steps.push(shown());
    steps
}

fn levels_fall() -> Vec<Step> {
    one_row_otherwise(6, |row| Row::new(100 * row - 1, 150 * (row + 1)))
}

fn volumes_fall() -> Vec<Step> {
    one_row_otherwise(16, |row| Row::new(100 * (row + 1), 150 * row - 1))
}

/// On rows of zeros, of FFh and of 21h: a row that is higher or lower by 1, in its
/// upper byte alone, in its lower one, or by all there is; rows of zeros behind
/// the last one, and all rows from the last one down to the first.
fn other_falls() -> Vec<Step> {
    let mut steps = Vec::new();
    let mut fall = |byte, changes: &[Change]| {
        let level = u32::from(byte) * 257;
        let step = asked("a fall", 4, level).refused(13);
        steps.push(step.after(&full_of(byte)).after(changes));
    };
    for row in [1, 2, 32, 33, 200, 351] {
        fall(0x00, &[set_row(4, row, 1, 0)]);
        fall(0x00, &[set_row(4, row, 0, 1)]);
        fall(0x00, &[set_row(4, row, 0xFFFF, 0)]);
        fall(0x00, &[set_row(4, row, 0, 0xFFFF)]);
        fall(0x21, &[set_row(4, row, 0x2221, 0x2121)]);
        fall(0x21, &[set_row(4, row, 0x2121, 0x2122)]);
    }
    for row in [2, 32, 33, 200, 351, 352] {
        fall(0xFF, &[set_row(4, row, 0xFFFE, 0xFFFF)]);
        fall(0xFF, &[set_row(4, row, 0xFFFF, 0xFFFE)]);
        fall(0xFF, &[set_row(4, row, 0, 0xFFFF)]);
        fall(0xFF, &[set_row(4, row, 0xFFFF, 0)]);
        fall(0x21, &[set_row(4, row, 0x2021, 0x2121)]);
        fall(0x21, &[set_row(4, row, 0x2121, 0x2120)]);
        // Lower in the upper byte, and higher in the other.
        fall(0x21, &[set_row(4, row, 0x20FF, 0x2121)]);
        fall(0x21, &[set_row(4, row, 0x2121, 0x20FF)]);
    }
    let zeros = vec![Row::new(0, 0); 20];
    fall(0x21, &[set_rows(4, 333, &zeros)]);
    steps.extend(falling_rows());
    steps
}

/// Levels or volumes fall in every step while the others rise.
fn falling_rows() -> Vec<Step> {
    let level = |row| Row::new(even(ROWS + 1 - row).level, even(row).volume);
    let volume = |row| Row::new(even(row).level, even(ROWS + 1 - row).volume);
    let mut steps = Vec::new();
    for rows in [
        (1..=ROWS).map(level).collect::<Vec<_>>(),
        (1..=ROWS).map(volume).collect(),
    ] {
        let step = asked("falling all along", 4, 17_600).refused(13);
        steps.push(step.after(&super::set_table(4, &rows)));
        steps.push(asked("falling all along", 4, 0).refused(13));
    }
    steps
}

/// What makes an image unusable, and what makes it usable again.
fn spoils() -> Vec<[Change; 2]> {
    let byte = |offset, good, bad| [bad, good].map(|value| Change::Bytes(offset, vec![value]));
    let length = |bad| [Change::Length(bad), Change::Length(IMAGE_BYTES)];
    let mut spoils = vec![
        byte(0, b'I', b'i'),
        byte(1, b'Z', b'K'),
        byte(2, b'K', 0),
        byte(3, 0, 2),
        byte(4, 2, 1),
        byte(4, 2, 0),
        byte(4, 2, 3),
        byte(5, 1, 0),
        length(0),
        length(23_753),
        length(23_816),
        length(23_818),
        length(24_000),
    ];
    for table in 0..8 {
        spoils.push(byte(713 + 64 * table, 0, 22));
    }
    spoils.push(byte(713, 0, 255));
    // A twelfth bit beside all eleven, and the highest bit, in each word.
    for table in 0..16 {
        spoils.push(byte(17 + 2 * table, 0x07, 0x0F));
        spoils.push(byte(17 + 2 * table, 0x07, 0x87));
    }
    spoils
}

fn unusable() -> Vec<Step> {
    let mut steps = Vec::new();
    for [bad, good] in spoils() {
        let asked_of = |rule, table| asked(rule, table, 8418);
        steps.push(asked_of("not usable", 2).after(&[bad]).refused(1));
        for table in [1, 8, 11, 18] {
            steps.push(asked_of("not usable", table).refused(1));
        }
        let usable = asked_of("usable again", 12).after(&[good]);
        steps.push(usable.answers(8481 - 63 * 12));
    }
    let first_version = [Change::Bytes(4, vec![1]), Change::Length(23_753)];
    let second_version = [Change::Bytes(4, vec![2]), Change::Length(IMAGE_BYTES)];
    let step = asked("usable in version 1", 12, 8418);
    steps.push(step.after(&first_version).refused(1));
    steps.extend(behind(&second_version, answered(12)));
    // 21 rows are as good as none, and other bytes are not judged.
    for (offset, bytes) in [
        (713, &[21, 0xFF, 0x00][..]),
        (6, &[0xFF; 11]),
        (23_753, &[0x99; 64]),
    ] {
        let change = Change::Bytes(offset, bytes.to_vec());
        steps.extend(behind(&[change], answered(18)));
    }
    behind(&each_differently(), steps)
}

/// Questions that would be refused 10, 12, 13 and 14, and one that would be
/// answered, on an image that is not usable.
fn first_1() -> Vec<Step> {
    let changes = [
        set_word(3, 2046),
        set_row(4, 352, 8480, 8481),
        set_word(5, 2045),
        set_row(5, 1, 8482, 8481),
    ];
    let numbers = [
        (9, 8481, 10),
        (3, 8481, 12),
        (4, 8481, 13),
        (5, 9000, 12),
        (6, 8482, 14),
    ];
    let mut steps = Vec::new();
    for [bad, good] in spoils().into_iter().step_by(3) {
        let one = asked("1 alone", 1, 8481).after(&[bad]);
        steps.push(one.refused(1));
        for (table, level, _) in numbers {
            steps.push(asked("1 first", table, level).refused(1));
        }
        steps.push(asked("usable", 1, 8481).after(&[good]).answers(8481));
        for (table, level, number) in numbers {
            steps.push(asked("usable", table, level).refused(number));
        }
    }
    let steps = behind(&changes, steps);
    behind(&each_differently(), steps)
}

/// Each of the checks with one behind it. No table, no rows: with 10 there is
/// nothing else, but the level may be any, and all tables may lack parts.
fn in_order() -> Vec<Step> {
    let ask_one = |rule, level, number| asked(rule, 3, level).refused(number);
    let falls = set_row(3, 352, 8481, 8480);
    let mut steps = vec![
        asked("10 before 14", 9, 0).refused(10),
        asked("10 before 14", 10, u32::MAX).refused(10),
        ask_one("14 alone", 8380, 14),
        ask_one("14 alone", 8482, 14),
        ask_one("14 alone", 65_536 + 8481, 14),
        ask_one("13 alone", 8481, 13).after(&[falls]),
        ask_one("13 alone, the fall behind the row", 8381, 13),
        ask_one("13 before 14", 8380, 13),
        ask_one("13 before 14", 8482, 13),
        ask_one("13 before 14", 65_536 + 8481, 13),
        ask_one("12 before 13", 8481, 12).after(&[set_word(3, 2046)]),
        ask_one("12 before 13 and 14", 8380, 12),
        ask_one("12 before 13 and 14", u32::MAX, 12),
        ask_one("12 before 14", 8380, 12).after(&[set_row(3, 352, 8481, 8481)]),
        ask_one("12 before 14", 8482, 12),
        ask_one("12 alone", 8481, 12),
    ];
    let none_whole = Change::Bytes(17, vec![0; 32]);
    steps.push(
        asked("10 before 12", 9, 8481)
            .after(&[none_whole])
            .refused(10),
    );
    for number in [0, 10, 19, 258, 268, 65_537, u32::MAX] {
        steps.push(asked("10 before 12", number, 8481).refused(10));
    }
    steps.push(asked("12", 3, 8481).refused(12));
    let address = Change::Bytes(5, vec![0]);
    steps.push(asked("1 before 10", 258, 8481).after(&[address]).refused(1));
    steps.push(asked("1 before 12", 3, 8481).refused(1));
    steps.push(asked("1 before 12 and 14", 3, 0).refused(1));
    behind(&each_differently(), steps)
}
