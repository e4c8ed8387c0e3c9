//! Fixed calls of document 02, wish 7: the 32 signatures are kept in the image,
//! two bytes each from offset 23,753, tables first, then constants, then error
//! tables. 53, 59 and 62 amend the word of their item by what left and what
//! came, remainder by 65,536, and nothing else touches a word but a fresh image,
//! which has 0 in all of them. 55, 61 and 64 answer the word as it stands, true
//! or false. The version is 2 and the length 23,817.
//!
//! A cell is written with bytes that add up to a sum that is given; the word
//! that it leaves stands beside it.

use super::{fresh, serve, serve_sealed, word_of, Change, Session, Step};
use crate::items::{item, ITEMS, WORDS};
use crate::streams::ask;

/// What the 32 items are written to, in the order of their words.
pub(super) const SUMS: [u16; 32] = [
    0x1101, 0x1202, 0x1303, 0x1404, 0x1505, 0x1606, 0x1707, 0x1808, 0x210B, 0x220C, 0x230D, 0x240E,
    0x250F, 0x2610, 0x2711, 0x2812, 0x0510, 0x0611, 0x0712, 0x0813, 0x0914, 0x0A15, 0x0B16, 0x0C17,
    0x0121, 0x0222, 0x0323, 0x0424, 0x0525, 0x0526, 0x0527, 0x0528,
];

/// The highest sum of a part: 128 times FFh.
const FULL_PART: u16 = 0x7F80;

pub fn sessions() -> Vec<Session> {
    let mut sessions = vec![
        Session::new("signatures, each item", each_item()),
        Session::new("signatures, parts", parts()),
        Session::new("signatures, past 65,535", past_65_535()),
        Session::new("signatures, constants", constants_again()),
        Session::new("signatures, error tables", errors_again()),
        Session::new("signatures, writes refused", writes_refused()),
        Session::new("signatures, other writes", other_writes()),
        Session::new("signatures, part 2 then 7", in_order([2, 7], 0)),
        Session::new("signatures, part 7 then 2", in_order([7, 2], 0)),
        false_words("signatures, as they stand", as_they_stand()),
        false_words("signatures, sealed writes", sealed_writes()),
        Session::new("signatures, false by as much", false_by_as_much()),
        false_then("signatures, false, part 2 then 7", [2, 7]),
        false_then("signatures, false, part 7 then 2", [7, 2]),
        Session::new("signatures, past the ends", past_the_ends()),
        Session::new("signatures, bytes changed", bytes_changed()),
        Session::new("signatures, words changed", words_changed()),
        Session::new("signatures, any words", any_words()).holding(WORDS.start, &[0xFF; 64]),
        Session::new("signatures, fresh", fresh_over_words()),
        Session::new("signatures, other versions", other_versions()),
        Session::new("signatures, address CEh", at_ce()).address(0xCE),
    ];
    sessions.extend(other_lengths());
    sessions
}

/// So many bytes that add up to this: FFh as often as it goes, then the rest.
pub(super) fn adding_up(sum: u16, count: usize) -> Vec<u8> {
    let rest = |place| usize::from(sum).saturating_sub(255 * place);
    (0..count).map(|place| rest(place).min(255) as u8).collect()
}

/// A part of a table that adds up to this.
pub(super) fn part_cell(sum: u16) -> Vec<u8> {
    adding_up(sum, 128)
}

/// Constants that add up to this, with gas composition 1 and the rest in
/// fields that are no reserve.
pub(super) fn constants_cell(sum: u16) -> Vec<u8> {
    let fields = adding_up(sum - 1, 17);
    let mut cell = vec![0; 83];
    cell[3] = 1; // body byte 7
    cell[4..13].copy_from_slice(&fields[..9]); // body bytes 8 to 16
    cell[75..].copy_from_slice(&fields[9..]); // body bytes 79 to 86
    cell
}

/// An error table of so many rows that adds up to this, count and all. Its
/// temperatures are 0, 1, 2 and so on.
pub(super) fn errors_cell(count: u8, sum: u16) -> Vec<u8> {
    let temperatures: u16 = (0..u16::from(count)).sum();
    let corrections = adding_up(sum - u16::from(count) - temperatures, 42);
    let mut cell = vec![count];
    for (temperature, correction) in (0..count).zip(corrections.chunks(2)) {
        cell.push(temperature);
        cell.extend(correction);
    }
    cell.resize(64, 0);
    cell
}

/// An accepted 59, the word of the parts then held, and the signature.
pub(super) fn part(rule: &'static str, place: (u8, u8), held: u16, sum: u16, word: u16) -> Step {
    let ((table, part), rows) = (place, part_cell(sum));
    serve(rule, &ask(1, 59, &[&[table, part], &rows[..]].concat()))
        .writes(&ask(1, 59, &[table, part]))
        .stores(table_at(table) + 128 * usize::from(part - 1), &rows)
        .stores(held_at(table), &held.to_be_bytes())
        .stores(word_of(59, table), &word.to_be_bytes())
}

fn table_at(table: u8) -> usize {
    item(59, table).expect("a table").offset
}

/// Where the word of a table's parts lies. Those of tables 1 to 8 and then 11
/// to 18 stand in a row as the signatures do.
fn held_at(table: u8) -> usize {
    17 + word_of(59, table) - WORDS.start
}

pub(super) fn constants(rule: &'static str, channel: u8, sum: u16, word: u16) -> Step {
    let at = item(53, channel).expect("a channel").offset;
    let cell = constants_cell(sum);
    serve(rule, &ask(1, 53, &[&[channel], &cell[..]].concat()))
        .replies(":0135CA")
        .stores(at, &cell)
        .stores(word_of(53, channel), &word.to_be_bytes())
}

pub(super) fn errors(rule: &'static str, (number, count): (u8, u8), sum: u16, word: u16) -> Step {
    let at = item(62, number).expect("an error table").offset;
    let cell = errors_cell(count, sum);
    let sent = 1 + 3 * usize::from(count);
    serve(rule, &ask(1, 62, &[&[number], &cell[..sent]].concat()))
        .writes(&ask(1, 62, &[number]))
        .stores(at, &cell)
        .stores(word_of(62, number), &word.to_be_bytes())
}

/// A 55, 61 or 64 and the word that it answers.
pub(super) fn asked(rule: &'static str, command: u8, number: u8, word: u16) -> Step {
    let [high, low] = word.to_be_bytes();
    serve(rule, &ask(1, command, &[number])).writes(&ask(1, command, &[number, high, low]))
}

pub(super) fn sealed(mut step: Step) -> Step {
    step.letter = 'K';
    step
}

/// Asked unsealed and then sealed, which is nothing to the answer.
pub(super) fn asked_twice(rule: &'static str, command: u8, number: u8, word: u16) -> [Step; 2] {
    let again = sealed(asked(rule, command, number, word));
    [asked(rule, command, number, word), again]
}

/// The same right after bytes were changed behind the block's back.
fn changed(offset: usize, bytes: &[u8], [once, again]: [Step; 2]) -> [Step; 2] {
    [once.after_change(offset, bytes), again]
}

/// A write of the item at this place among the words, after which nothing but
/// this is stored of it. A table has one part written, another for each table.
pub(super) fn write_of(rule: &'static str, place: usize, sum: u16, word: u16) -> Step {
    let item = &ITEMS[place];
    match item.commands[0] {
        53 => constants(rule, item.number, sum, word),
        62 => errors(rule, (item.number, 3), sum, word),
        _ => {
            let part_number = 1 + item.number % 11;
            let held = 1 << (part_number - 1);
            part(rule, (item.number, part_number), held, sum, word)
        }
    }
}

/// Each is written alone, so that a word at another item's place would show;
/// then all are asked, and each is written over.
fn each_item() -> Vec<Step> {
    let ask_all = |rule, less: u16| {
        let items = ITEMS.iter().zip(SUMS);
        items.map(move |(item, sum)| asked(rule, item.commands[2], item.number, sum - less))
    };
    let mut steps = Vec::new();
    for (place, sum) in SUMS.into_iter().enumerate() {
        let ([_, _, sign], number) = (ITEMS[place].commands, ITEMS[place].number);
        steps.push(asked("nothing written", sign, number, 0));
        steps.push(write_of("its word alone", place, sum, sum));
        steps.push(asked("what was written", sign, number, sum));
    }
    steps.extend(ask_all("every item", 0));
    for (place, sum) in SUMS.into_iter().enumerate() {
        steps.push(write_of("over another", place, sum - 0x100, sum - 0x100));
    }
    steps.extend(ask_all("every item, written over", 0x100));
    steps
}

/// Table, part, the word of parts then held, sum of the part, and signature.
const PARTS: [(&str, u8, u8, u16, u16, u16); 18] = [
    ("part 3 first", 12, 3, 0x004, 0x1234, 0x1234),
    ("less", 12, 3, 0x004, 0x0567, 0x0567),
    ("part 4 first", 12, 4, 0x00C, 0x7F80, 0x84E7),
    ("the same again", 12, 3, 0x00C, 0x0567, 0x84E7),
    ("more", 12, 3, 0x00C, 0x7F80, 0xFF00),
    ("table 2, part 3 first", 2, 3, 0x004, 0x0001, 0x0001),
    ("zeros", 12, 4, 0x00C, 0x0000, 0x7F80),
    ("one more in table 2", 2, 3, 0x004, 0x0002, 0x0002),
    ("zeros", 12, 3, 0x00C, 0x0000, 0x0000),
    ("zeros over zeros", 12, 3, 0x00C, 0x0000, 0x0000),
    ("zeros, part 11 first", 12, 11, 0x40C, 0x0000, 0x0000),
    ("up to 00FFh", 2, 3, 0x004, 0x00FF, 0x00FF),
    ("over to 0100h", 2, 3, 0x004, 0x0100, 0x0100),
    ("back to 00FFh", 2, 3, 0x004, 0x00FF, 0x00FF),
    ("part 11 first", 2, 11, 0x404, 0x0F01, 0x1000),
    ("one less", 2, 11, 0x404, 0x0F00, 0x0FFF),
    ("part 11 again", 12, 11, 0x40C, 0x0ABC, 0x0ABC),
    ("part 3 again", 12, 3, 0x40C, 0x0ABC, 0x1578),
];

/// Tables 2 and 12 by turns, both asked behind each write.
fn parts() -> Vec<Step> {
    let mut words = [0, 0];
    let mut steps = Vec::new();
    for (rule, table, part_number, held, sum, word) in PARTS {
        words[usize::from(table / 10)] = word;
        steps.push(part(rule, (table, part_number), held, sum, word));
        steps.push(asked(rule, 61, 2, words[0]));
        steps.push(asked(rule, 61, 12, words[1]));
    }
    steps.extend(other_order());
    steps
}

/// Other bytes with the same sum leave the signature.
fn other_order() -> [Step; 2] {
    let mut rows = part_cell(0x0ABC);
    rows.reverse();
    let data = [&[12, 3], &rows[..]].concat();
    let step = serve("the same bytes in another order", &ask(1, 59, &data))
        .replies(":013B0C03B5")
        .stores(table_at(12) + 2 * 128, &rows);
    [step, asked("as before", 61, 12, 0x1578)]
}

/// The signature of table 18 as its parts are filled with FFh one by one: 7F80h
/// more each time, remainder by 65,536.
const FILLED: [u16; 11] = [
    0x7F80, 0xFF00, 0x7E80, 0xFE00, 0x7D80, 0xFD00, 0x7C80, 0xFC00, 0x7B80, 0xFB00, 0x7A80,
];

fn past_65_535() -> Vec<Step> {
    let mut steps = Vec::new();
    let mut write = |rule, part_number, held, sum, word| {
        steps.push(part(rule, (18, part_number), held, sum, word));
        steps.push(asked(rule, 61, 18, word));
    };
    for (number, word) in (1..).zip(FILLED) {
        let held = (1 << number) - 1;
        write("filled", number, held, FULL_PART, word);
        write("filled once more", number, held, FULL_PART, word);
    }
    for number in (1..=11).rev() {
        let left = match number {
            1 => 0,
            _ => FILLED[usize::from(number) - 2],
        };
        write("emptied", number, 0x7FF, 0, left);
        write("emptied once more", number, 0x7FF, 0, left);
    }
    steps
}

/// Each channel, written over and over.
fn constants_again() -> Vec<Step> {
    let mut steps = Vec::new();
    for channel in 0..=7 {
        for (rule, sum) in [
            ("first", 0x0123),
            ("the same", 0x0123),
            ("less", 0x0045),
            ("the least", 0x0001),
            ("the most", 0x10F0),
            ("less", 0x0100),
            ("one less", 0x00FF),
            ("one more", 0x0100),
        ] {
            steps.push(constants(rule, channel, sum, sum));
            steps.push(asked(rule, 55, channel, sum));
        }
    }
    steps
}

/// Rows that vanish are taken off, and the zeros behind the new rows count.
fn errors_again() -> Vec<Step> {
    let mut steps = Vec::new();
    for number in 1..=8 {
        for (rule, count, sum) in [
            ("21 rows first", 21, 0x2ABD),
            ("1 row over 21", 1, 0x0001),
            ("1 row over 1", 1, 0x01FF),
            ("2 rows over 1", 2, 0x0203),
            ("the same", 2, 0x0203),
            ("20 rows over 2", 20, 0x2000),
            ("21 rows over 20", 21, 0x2000),
            ("20 rows over 21", 20, 0x2001),
            ("3 rows over 20", 3, 0x0100),
            ("more rows, the same sum", 4, 0x0100),
            ("fewer rows, the same sum", 2, 0x0100),
            ("1 row over 2", 1, 0x00FF),
        ] {
            steps.push(errors(rule, (number, count), sum, sum));
            steps.push(asked(rule, 64, number, sum));
        }
    }
    steps
}

/// Each is for an item that is written, or for none, with other bytes than it
/// has. The signatures of those that are written stay.
fn writes_refused() -> Vec<Step> {
    let mut steps = written_items();
    let asked = || {
        [
            asked("left as it was", 55, 3, 0x0333),
            asked("left as it was", 61, 3, 0x3333),
            asked("left as it was", 64, 3, 0x0433),
        ]
    };
    for (number, command, data) in bad_writes() {
        steps.push(serve("refused", &ask(1, command, &data)).refused(number));
        steps.extend(asked());
    }
    let good = ask(1, 59, &[&[3, 3], &part_cell(0x1000)[..]].concat());
    let mut wrong = good.clone();
    wrong[9] = if good[9] == b'0' { b'1' } else { b'0' }; // in the first row
    steps.push(serve("refused", &wrong).refused(6));
    wrong[9] = b'g';
    steps.push(serve("refused", &wrong).refused(5));
    steps.push(serve("refused", &good[1..]).refused(3));
    for (command, data) in [
        (53, [&[3], &constants_cell(2)[..]].concat()),
        (59, [&[3, 3], &part_cell(2)[..]].concat()),
        (62, vec![3, 1, 0, 0, 1]),
    ] {
        steps.push(serve("refused", &ask(2, command, &data)).refused(7));
        steps.push(serve("refused", &ask(1, 65, &data)).refused(8));
    }
    steps.extend(asked());
    steps
}

/// Channel 3, part 3 of table 3, and error table 3.
fn written_items() -> Vec<Step> {
    vec![
        constants("written", 3, 0x0333, 0x0333),
        part("written", (3, 3), 0x004, 0x3333, 0x3333),
        errors("written", (3, 3), 0x0433, 0x0433),
    ]
}

/// A number, and a command with data that is refused by it.
fn bad_writes() -> Vec<(u8, u8, Vec<u8>)> {
    let channel = |number, cell: &[u8]| [&[number], cell].concat();
    let of_gas = |gas| {
        let mut cell = constants_cell(0x0222);
        cell[3] = gas;
        cell
    };
    let mut reserve = constants_cell(0x0222);
    reserve[13] = 1; // body byte 17
    let rows = part_cell(0x1000);
    let of_part = |table, part, rows: &[u8]| [&[table, part], rows].concat();
    vec![
        (9, 53, channel(3, &reserve[..82])),
        (9, 53, channel(3, &[0; 84])),
        (10, 53, channel(8, &of_gas(1))),
        (11, 53, channel(3, &of_gas(0))),
        (11, 53, channel(3, &of_gas(14))),
        (11, 53, channel(3, &reserve)),
        (9, 59, of_part(3, 3, &rows[..127])),
        (9, 59, of_part(3, 3, &[])),
        (10, 59, of_part(9, 3, &rows)),
        (10, 59, of_part(19, 3, &rows)),
        (10, 59, of_part(3, 0, &rows)),
        (10, 59, of_part(3, 12, &rows)),
        (9, 62, vec![3, 1, 0, 0]),
        (9, 62, vec![3, 0]),
        (10, 62, vec![0, 1, 0, 0, 1]),
        (10, 62, vec![9, 1, 0, 0, 1]),
        (10, 62, vec![3, 2, 0, 0, 1]),
        (11, 62, vec![3, 2, 1, 0, 1, 1, 0, 2]),
        (11, 62, vec![3, 2, 0x80, 0, 1, 0x81, 0, 2]),
    ]
}

/// Mask, mode and clock have no signature, and neither have the parts held.
fn other_writes() -> Vec<Step> {
    let mut steps = vec![
        part("written", (1, 1), 0x001, 0x1111, 0x1111),
        constants("written", 0, 0x0222, 0x0222),
        errors("written", (1, 2), 0x0133, 0x0133),
    ];
    let asked = || {
        [
            asked("left as it was", 61, 1, 0x1111),
            asked("left as it was", 55, 0, 0x0222),
            asked("left as it was", 64, 1, 0x0133),
            asked("left as it was", 61, 18, 0x0000),
        ]
    };
    for mask in [0xFF, 0xFF, 0x01, 0x00] {
        let frame = ask(1, 51, &[mask]);
        steps.push(serve("51", &frame).writes(&frame).stores(6, &[mask]));
        steps.extend(asked());
    }
    for mode in [0xFF, 0xFF, 0x00] {
        let frame = ask(1, 76, &[mode]);
        steps.push(serve("76", &frame).writes(&frame).stores(7, &[mode]));
        steps.extend(asked());
    }
    for clock in [
        [59, 59, 23, 7, 31, 12, 99, 0, 0],
        [0, 0, 0, 1, 1, 1, 0, 0, 0],
    ] {
        let step = serve("77", &ask(1, 77, &clock)).replies(":014DB2");
        steps.push(step.stores(8, &clock));
        steps.extend(asked());
    }
    steps
}

/// Two parts of table 11 in either order, false by this: the last word, the
/// parts held and the rows are those of the other order.
fn in_order(order: [u8; 2], amount: u16) -> Vec<Step> {
    let sum = |part_number| if part_number == 2 { 0x7F00 } else { 0x3421 };
    let mut steps = Vec::new();
    let (mut held, mut word) = (0, amount);
    for part_number in order {
        held |= 1 << (part_number - 1);
        word = u16::wrapping_add(word, sum(part_number));
        let place = (11, part_number);
        steps.push(part("first", place, held, sum(part_number), word));
        steps.extend(asked_twice("first", 61, 11, word));
    }
    let last = 0xB321u16.wrapping_add(amount);
    steps.extend(asked_twice("both", 61, 11, last));
    let again = (11, order[0]);
    steps.push(part("again", again, 0x042, sum(order[0]), last));
    steps.extend(asked_twice("again", 61, 11, last));
    steps
}

fn false_then(name: &'static str, order: [u8; 2]) -> Session {
    Session::new(name, in_order(order, 0xCDEF)).holding(word_of(59, 11), &[0xCD, 0xEF])
}

/// The word of an item that holds nothing, by its place among them: 807Fh,
/// 817Eh and so on, so that no two are alike.
fn false_word(place: usize) -> u16 {
    0x807F + 0x00FF * place as u16
}

/// All 32 words are false from the start.
fn false_words(name: &'static str, steps: Vec<Step>) -> Session {
    let words = (0..32).flat_map(|place| false_word(place).to_be_bytes());
    Session::new(name, steps).holding(WORDS.start, &words.collect::<Vec<u8>>())
}

fn as_they_stand() -> Vec<Step> {
    let mut steps = Vec::new();
    for (place, item) in ITEMS.iter().enumerate() {
        let word = false_word(place);
        let command = item.commands[2];
        steps.extend(asked_twice("false", command, item.number, word));
        for word in [0xFFFF, 0x00FF, 0xFF00, 0x0001, 0x0100, 0x8000, 0x0000] {
            let asked = asked_twice("changed", command, item.number, word);
            steps.extend(changed(item.word, &word.to_be_bytes(), asked));
        }
    }
    steps
}

/// Sealed writes leave the words; the same unsealed amend them.
fn sealed_writes() -> Vec<Step> {
    let mut steps = Vec::new();
    for (place, sum) in SUMS.into_iter().enumerate() {
        let item = &ITEMS[place];
        let (command, word) = (item.commands[2], false_word(place));
        let amended = word.wrapping_add(sum);
        let write = write_of("unsealed", place, sum, amended);
        let refused = || serve_sealed("sealed", &write.input).refused(16);
        steps.push(refused());
        steps.extend(asked_twice("left", command, item.number, word));
        let again = refused();
        steps.push(write);
        steps.push(again);
        steps.extend(asked_twice("amended", command, item.number, amended));
    }
    for (command, data) in [
        (51, vec![0xFF]),
        (76, vec![0xFF]),
        (77, vec![59, 59, 23, 7, 31, 12, 99, 0, 0]),
        (53, vec![0; 84]),
        (59, vec![0; 130]),
        (62, vec![1, 1, 0, 0]),
    ] {
        steps.push(serve_sealed("sealed", &ask(1, command, &data)).refused(16));
    }
    steps
}

/// A word that is off by some amount is off by the same amount after every
/// write: written over, by less, by more, by the same, and by fewer rows.
fn false_by_as_much() -> Vec<Step> {
    let mut steps = Vec::new();
    for (number, amount) in (1..).zip([0x0001, 0xFFFF, 0x8000, 0x1234u16]) {
        let off = |sum: u16| sum.wrapping_add(amount);
        let start = |step: Step, command| {
            let word = word_of(command, number);
            step.after_change(word, &amount.to_be_bytes())
        };
        steps.push(start(asked("nothing written", 61, number, amount), 59));
        for sum in [0x1234, 0x0567, 0x0567, 0x7F80, 0x0000, 0x0001] {
            let step = part("false by as much", (number, 11), 0x400, sum, off(sum));
            steps.push(step);
            steps.extend(asked_twice("false by as much", 61, number, off(sum)));
        }
        steps.push(start(asked("nothing written", 55, number, amount), 53));
        for sum in [0x0123, 0x0045, 0x0045, 0x10F0, 0x0001] {
            steps.push(constants("false by as much", number, sum, off(sum)));
            steps.extend(asked_twice("false by as much", 55, number, off(sum)));
        }
        steps.push(start(asked("nothing written", 64, number, amount), 62));
        for (count, sum) in [(21, 0x2ABD), (1, 0x0001), (2, 0x0203), (2, 0x0203), (1, 2)] {
            let step = errors("false by as much", (number, count), sum, off(sum));
            steps.push(step);
            steps.extend(asked_twice("false by as much", 64, number, off(sum)));
        }
    }
    steps
}

/// Part 1 of table 11, empty at first: the word to which it is changed before a
/// write, the sum that is written, and the word that is left.
const PART_ENDS: [(u16, u16, u16); 14] = [
    (0xFFFF, 0x0001, 0x0000),
    (0x0000, 0x0000, 0xFFFF),
    (0xFFFF, 0x7F80, 0x7F7F),
    (0x0000, 0x0000, 0x8080),
    (0x8080, 0x7F80, 0x0000),
    (0x7F7F, 0x0000, 0xFFFF),
    (0x807F, 0x7F80, 0xFFFF),
    (0x7F80, 0x0000, 0x0000),
    (0x0000, 0x7F80, 0x7F80),
    // Below 0 only if what left is taken off first, and past 65,535 only if
    // what came is added first.
    (0x0000, 0x7F80, 0x0000),
    (0xFFFF, 0x7F80, 0xFFFF),
    (0x1000, 0x7000, 0x0080),
    (0xF000, 0x7F80, 0xFF80),
    (0xF000, 0x2000, 0x9080),
];

/// The same for channel 5.
const CONSTANTS_ENDS: [(u16, u16, u16); 12] = [
    (0xFFFF, 0x0001, 0x0000),
    (0x0000, 0x0002, 0x0001),
    (0x0000, 0x0001, 0xFFFF),
    (0xFFFF, 0x10F0, 0x10EE),
    (0x0000, 0x0001, 0xEF11),
    (0xEF10, 0x10F0, 0xFFFF),
    (0x10EE, 0x0001, 0xFFFF),
    (0x0000, 0x10F0, 0x10EF),
    (0x0800, 0x1000, 0x0710),
    (0xFFFF, 0x1000, 0xFFFF),
    (0xFF00, 0x1080, 0xFF80),
    (0xFF00, 0x0100, 0xEF80),
];

/// The same for error table 6, with the count of rows before the sum.
const ERRORS_ENDS: [(u16, u8, u16, u16); 13] = [
    (0xFFFF, 1, 0x0001, 0x0000),
    (0x0000, 1, 0x0002, 0x0001),
    (0x0000, 1, 0x0001, 0xFFFF),
    (0xFFFF, 21, 0x2ABD, 0x2ABB),
    (0x0000, 1, 0x0001, 0xD544),
    (0xD543, 21, 0x2ABD, 0xFFFF),
    (0x2ABB, 1, 0x0001, 0xFFFF),
    (0x0000, 21, 0x2ABD, 0x2ABC),
    (0x0000, 21, 0x2ABD, 0x0000),
    (0xFFFF, 21, 0x2ABD, 0xFFFF),
    (0x2000, 20, 0x2345, 0x1888),
    (0xF000, 21, 0x2222, 0xEEDD),
    (0x0100, 1, 0x01FF, 0xE0DD),
];

fn past_the_ends() -> Vec<Step> {
    let mut steps = Vec::new();
    let mut push = |step: Step, at, before: u16, asked: [Step; 2]| {
        steps.push(step.after_change(at, &before.to_be_bytes()));
        steps.extend(asked);
    };
    for (before, sum, word) in PART_ENDS {
        let step = part("past an end", (11, 1), 0x001, sum, word);
        let asked = asked_twice("past an end", 61, 11, word);
        push(step, word_of(59, 11), before, asked);
    }
    for (before, sum, word) in CONSTANTS_ENDS {
        let step = constants("past an end", 5, sum, word);
        let asked = asked_twice("past an end", 55, 5, word);
        push(step, word_of(53, 5), before, asked);
    }
    for (before, count, sum, word) in ERRORS_ENDS {
        let step = errors("past an end", (6, count), sum, word);
        let asked = asked_twice("past an end", 64, 6, word);
        push(step, word_of(62, 6), before, asked);
    }
    steps
}

/// Bytes of an item that change behind the block's back are nothing to the
/// answer. When they are written over they are what left, wherever they stand.
fn bytes_changed() -> Vec<Step> {
    [table_changed(), constants_changed(), errors_changed()]
        .into_iter()
        .flatten()
        .collect()
}

/// Table 12, of which part 3 is written and no other.
fn table_changed() -> Vec<Step> {
    let (part_3, part_9) = (table_at(12) + 2 * 128, table_at(12) + 8 * 128);
    let still = |word| asked_twice("as it stands", 61, 12, word);
    let mut steps = vec![part("written", (12, 3), 0x004, 0x0400, 0x0400)];
    steps.extend(changed(part_3 + 127, &[0x05], still(0x0400)));
    // 0405h left.
    steps.push(part("over a change", (12, 3), 0x004, 0x0300, 0x02FB));
    steps.extend(changed(part_9, &[0x11; 128], still(0x02FB)));
    // A part that is not held has bytes all the same, here 880h.
    steps.push(part("not held", (12, 9), 0x104, 0x0010, 0xFA8B));
    // Part 10 is said to be held; its bytes are 0.
    let held = part("held and empty", (12, 10), 0x304, 0x0010, 0xFA9B);
    steps.push(held.after_change(held_at(12), &[0x03, 0x04]));
    steps.extend(still(0xFA9B));
    steps.extend(changed(table_at(12), &[0xFF; 1408], still(0xFA9B)));
    steps.push(part("all changed", (12, 11), 0x704, 0x0000, 0x7B1B));
    steps.extend(still(0x7B1B));
    // That all parts are held does not make the word true.
    steps.extend(changed(held_at(12), &[0x07, 0xFF], still(0x7B1B)));
    steps.push(part("all held", (12, 1), 0x7FF, 0x0001, 0xFB9C));
    steps.extend(still(0xFB9C));
    steps
}

/// Channel 6. Its reserve and its gas composition are such as no write leaves.
fn constants_changed() -> Vec<Step> {
    let at = item(53, 6).expect("a channel").offset;
    let still = |word| asked_twice("as it stands", 55, 6, word);
    let mut steps = vec![constants("written", 6, 0x0200, 0x0200)];
    // Body bytes 17 to 20.
    steps.extend(changed(at + 13, &[0x04; 4], still(0x0200)));
    steps.push(constants("reserve", 6, 0x0200, 0x01F0));
    // Body byte 7, which was 1: FEh more than was written leave.
    steps.extend(changed(at + 3, &[0xFF], still(0x01F0)));
    steps.push(constants("gas composition", 6, 0x0200, 0x00F2));
    // Without one, as if they had never been written, they have bytes still.
    steps.extend(changed(at + 3, &[0x00], still(0x00F2)));
    steps.push(constants("no gas composition", 6, 0x0200, 0x00F3));
    steps.extend(changed(at, &[0xFF; 83], still(0x00F3)));
    // 83 times FFh is 52ADh.
    steps.push(constants("all of it", 6, 0x0001, 0xAE47));
    steps.extend(still(0xAE47));
    steps
}

/// Error table 7. Rows behind its count are bytes of it, too.
fn errors_changed() -> Vec<Step> {
    let at = item(62, 7).expect("an error table").offset;
    let still = |word| asked_twice("as it stands", 64, 7, word);
    let mut steps = vec![errors("written", (7, 2), 0x0100, 0x0100)];
    steps.extend(changed(at + 7, &[0x02; 57], still(0x0100)));
    // 57 times 2 is 72h.
    steps.push(errors("behind the rows", (7, 2), 0x0100, 0x008E));
    steps.extend(changed(at, &[21], still(0x008E)));
    // The count was 2 and is 21 when it leaves.
    steps.push(errors("another count", (7, 1), 0x0010, 0xFF8B));
    steps.extend(changed(at, &[0], still(0xFF8B)));
    // A count of 0 does not make the table empty: 0Fh are left of 10h.
    steps.push(errors("no count", (7, 3), 0x0020, 0xFF9C));
    steps.extend(changed(at + 63, &[0xFF], still(0xFF9C)));
    steps.push(errors("the last byte", (7, 21), 0x0200, 0x007D));
    steps.extend(still(0x007D));
    steps
}

/// One byte of a word alone, and then writes that carry from one to the other.
fn words_changed() -> Vec<Step> {
    let word = word_of(59, 4);
    let high = |step: Step, byte| step.after_change(word, &[byte]);
    let low = |step: Step, byte| step.after_change(word + 1, &[byte]);
    let asked = |value| asked("high byte first", 61, 4, value);
    let write = |sum, word| part("high byte first", (4, 1), 0x001, sum, word);
    vec![
        high(asked(0x1200), 0x12),
        low(asked(0x1234), 0x34),
        write(0x0000, 0x1234),
        write(0x0100, 0x1334),
        write(0x0000, 0x1234),
        write(0x00CB, 0x12FF),
        write(0x00CC, 0x1300),
        asked(0x1300),
        low(asked(0x1301), 0x01),
        write(0x00CA, 0x12FF),
        high(write(0x00CB, 0xFF00), 0xFE),
        low(write(0x00CC, 0x0000), 0xFF),
        asked(0x0000),
    ]
}

/// The words are not judged: with FFh in all their bytes each of the fourteen
/// commands is served, and so is the question of held parts.
fn any_words() -> Vec<Step> {
    let held = |table: u32, parts, missing| {
        let step = Step::new("held parts", 'H', &table.to_be_bytes());
        step.holds(parts, missing)
    };
    let text = |text: &str| serve("served", format!("{text}\r\n").as_bytes());
    let mut steps = vec![held(1, 0, 1), held(18, 0, 1)];
    for step in [
        || serve("served", b":0132CD\r\n").replies(":013200CD"),
        || serve("served", b":014EB1\r\n").replies(":014E000000000000000000B1"),
        || serve("served", &ask(1, 54, &[0])).writes(&ask(1, 54, &[0; 84])),
        || serve("served", &ask(1, 60, &[1, 1])).writes(&part_reply()),
        || serve("served", b":013F08B8\r\n").replies(":013F0800B8"),
        || asked("served", 55, 7, 0xFFFF),
        || asked("served", 61, 18, 0xFFFF),
        || asked("served", 64, 8, 0xFFFF),
    ] {
        steps.extend([step(), sealed(step())]);
    }
    steps.extend([
        text(":01330FBD").replies(":01330FBD").stores(6, &[0x0F]),
        text(":014CFFB4").replies(":014CFFB4").stores(7, &[0xFF]),
        text(":014D3B3B17071F0C63000090")
            .replies(":014DB2")
            .stores(8, &[59, 59, 23, 7, 31, 12, 99, 0, 0]),
        constants("served", 7, 0x0002, 0x0001),
        part("served", (18, 2), 0x002, 0x0003, 0x0002),
        errors("served", (8, 1), 0x0004, 0x0003),
        held(18, 1, 1),
    ]);
    for byte in [0x00, 0x01, 0x08, 0x16, 0x7F, 0x80, 0xFE] {
        let asked = asked_twice("any", 61, 12, u16::from_be_bytes([byte; 2]));
        steps.extend(changed(WORDS.start, &[byte; 64], asked));
        steps.extend([held(18, 1, 1), held(12, 0, 1)]);
    }
    steps
}

/// What 60 replies for part 1 of table 1 when it is empty.
fn part_reply() -> Vec<u8> {
    ask(1, 60, &[&[1, 1], &[0; 128][..]].concat())
}

/// A fresh image of address 1 laid out, whatever was there.
fn laid_out(rule: &'static str) -> Step {
    let mut image = [0; 23_817];
    image[..6].copy_from_slice(b"IZK\x00\x02\x01");
    fresh(rule, 1).stores(0, &image)
}

/// Old words are gone from a fresh image. Where it is refused they stay.
fn fresh_over_words() -> Vec<Step> {
    let words = |step: Step, byte| step.after_change(WORDS.start, &[byte; 64]);
    let mut steps = vec![
        words(fresh("address 0", 0), 0xFF).refused(11),
        asked("left", 61, 12, 0xFFFF),
        laid_out("no word is left"),
        asked("fresh", 61, 1, 0),
        part("written", (1, 1), 0x001, 0x1234, 0x1234),
        words(laid_out("no word is left"), 0x01),
    ];
    for (place, item) in ITEMS.iter().enumerate() {
        steps.push(asked("fresh", item.commands[2], item.number, 0));
        let step = laid_out("not this one either");
        steps.push(step.after_change(item.word + place % 2, &[0x80]));
    }
    steps
}

/// Both bytes of the version, and then the right one again. A fresh image is
/// laid out over any version.
fn other_versions() -> Vec<Step> {
    let mut steps = Vec::new();
    for version in [
        [0, 1],
        [0, 0],
        [0, 3],
        [1, 2],
        [2, 0],
        [2, 2],
        [0xFF, 2],
        [0, 0xFF],
        [1, 0],
    ] {
        let mut refused = all_refused();
        refused[0].changed.push(Change::Bytes(3, version.to_vec()));
        steps.extend(refused);
        let right = || serve("version 2", b":0132CD\r\n").replies(":013200CD");
        steps.push(right().after_change(3, &[0, 2]));
        let over = laid_out("over another version");
        steps.extend([over.after_change(3, &version), right()]);
    }
    steps
}

/// Number 1 for what needs an image: served, sealed, and held parts.
pub(super) fn all_refused() -> Vec<Step> {
    let held = |table: u32| Step::new("no image", 'H', &table.to_be_bytes());
    let write = ask(1, 59, &[&[18, 11], &[0xFF; 128][..]].concat());
    let steps = vec![
        serve("no image", b":0132CD\r\n"),
        serve("no image", b":01330FBD\r\n"),
        serve("no image", &write),
        serve("no image", &ask(1, 61, &[18])),
        serve("1 before 6", b":0132CE\r\n"),
        serve_sealed("no image", b":0132CD\r\n"),
        serve_sealed("1 before 16", &write),
        serve_sealed("no image", &ask(1, 64, &[8])),
        held(1),
        held(18),
        held(9),
    ];
    steps.into_iter().map(|step| step.refused(1)).collect()
}

/// Images that are cut short or go on too long, one of them as version 1 had
/// it. Nothing is laid out over them either.
fn other_lengths() -> Vec<Session> {
    let steps = || {
        let mut steps = all_refused();
        steps.push(fresh("no room", 1).refused(1));
        steps.push(fresh("1 before 11", 0).refused(1));
        steps.extend(all_refused());
        steps
    };
    let of = |name, length| Session::new(name, steps()).image_length(length);
    vec![
        of("signatures, 23,752 bytes", 23_752),
        of("signatures, 23,753 bytes", 23_753),
        of("signatures, 23,753 bytes of version 1", 23_753).holding(3, &[0, 1]),
        of("signatures, 23,754 bytes", 23_754),
        of("signatures, 23,815 bytes", 23_815),
        of("signatures, 23,816 bytes", 23_816),
        of("signatures, 23,818 bytes", 23_818),
        of("signatures, 24,000 bytes", 24_000),
    ]
}

fn at_ce() -> Vec<Step> {
    let line = |text: &str| serve("at that address", format!("{text}\r\n").as_bytes());
    let sealed = |text: &str| serve_sealed("at that address", format!("{text}\r\n").as_bytes());
    vec![
        line(":CE3D0CE9").replies(":CE3D0C0000E9"),
        line(&format!(":CE3B0C0B{}60", "FF".repeat(128)))
            .replies(":CE3B0C0BE0")
            .stores(table_at(12) + 10 * 128, &[0xFF; 128])
            .stores(held_at(12), &[0x04, 0x00])
            .stores(word_of(59, 12), &[0x7F, 0x80]),
        line(":CE3D0CE9").replies(":CE3D0C7F80EA"),
        sealed(":ce3d0ce9").replies(":CE3D0C7F80EA"),
        line(":CE3E0101140005D9")
            .replies(":CE3E01F3")
            .stores(713, &[0x01, 0x14, 0x00, 0x05])
            .stores(23_801, &[0x00, 0x1A]),
        line(":CE4001F1").replies(":CE4001001AD7"),
        sealed(":CE4001F1").replies(":CE4001001AD7"),
        line(":013D0CB6").refused(7),
    ]
}
