//! Fixed calls of document 02, wish 14: lists with repeats, each in two orders
//! or three in which any two frames keep theirs whenever one writes a cell that
//! the other reads or writes. Each frame has the same number and reply in all of
//! them, and the image ends the same. What stands in a table's word on the way
//! there is not the same, so that is written out for each order. At the end
//! there are pairs that do not keep their order, and what comes of it.

use super::signatures::{
    asked, constants, constants_cell, errors, errors_cell, part, part_cell, sealed,
};
use super::{fresh, serve, Session, Step, FIRST_ERRORS};
use crate::items::item;
use crate::streams::{ask, WRITING};

const CLOCK: [u8; 9] = [59, 58, 23, 7, 31, 12, 99, 0, 0];
const LATER: [u8; 9] = [0, 0, 0, 1, 1, 1, 0, 0, 0];
/// Table 3, where an older image has something in part 5.
const PART_5: usize = 4041 + 4 * 128;

pub fn sessions() -> Vec<Session> {
    let mut sessions = vec![
        Session::new("order, a part twice", part_twice()),
        Session::new("order, a part twice, otherwise", part_twice_otherwise()),
        Session::new("order, two desks", two_desks(&interleaved())),
        Session::new(
            "order, two desks, from the last part",
            two_desks(&from_last()),
        ),
        Session::new("order, two desks, one by one", two_desks(&one_by_one())),
    ];
    sessions.extend(in_orders(error_tables, &ERROR_TABLES));
    sessions.extend(in_orders(each_kind, &EACH_KIND));
    sessions.extend(in_orders(refused_among, &REFUSED_AMONG));
    sessions.extend(in_orders(equal_frames, &EQUAL_FRAMES));
    sessions.extend(in_orders(no_clash, &NO_CLASH));
    sessions.extend([
        false_words("order, false words", false_by_parts()).output(400),
        false_words("order, false words, otherwise", false_by_parts_otherwise()),
        older("order, older bytes", over_older()).output(300),
        older("order, older bytes, otherwise", over_older_otherwise()).output(271),
        older("order, sealed", sealed_list()).output(270),
        older("order, sealed, backwards", backwards(sealed_list())).output(400),
        Session::new("order, not kept", not_kept()),
    ]);
    sessions
}

/// The name of a list in an order, and the order.
type Named = (&'static str, &'static [usize]);

/// A list in each of these orders. What its frames leave is the same in all of
/// them: no two write parts of one table.
fn in_orders(list: fn() -> Vec<Step>, orders: &[Named]) -> Vec<Session> {
    let of = |&(name, order): &Named| {
        let mut steps: Vec<Option<Step>> = list().into_iter().map(Some).collect();
        let mut at = |place: &usize| steps[*place].take().expect("each place once");
        Session::new(name, order.iter().map(&mut at).collect())
    };
    orders.iter().map(of).collect()
}

fn backwards(mut steps: Vec<Step>) -> Vec<Step> {
    steps.reverse();
    steps
}

fn mask(value: u8) -> Step {
    let frame = ask(1, 51, &[value]);
    serve("mask", &frame).writes(&frame).stores(6, &[value])
}

fn mode(value: u8) -> Step {
    let frame = ask(1, 76, &[value]);
    serve("mode", &frame).writes(&frame).stores(7, &[value])
}

fn clock(value: &[u8; 9]) -> Step {
    serve("clock", &ask(1, 77, value))
        .replies(":014DB2")
        .stores(8, value)
}

/// A read of the item that these bytes name, and what it answers behind them.
fn read(command: u8, named: &[u8], answer: &[u8]) -> Step {
    serve("read", &ask(1, command, named)).writes(&ask(1, command, &[named, answer].concat()))
}

/// A read of a part, of constants and of an error table that add up to this.
fn read_part(place: (u8, u8), sum: u16) -> Step {
    read(60, &[place.0, place.1], &part_cell(sum))
}

fn read_constants(channel: u8, sum: u16) -> Step {
    read(54, &[channel], &constants_cell(sum))
}

fn read_errors((number, count): (u8, u8), sum: u16) -> Step {
    let rows = 1 + 3 * usize::from(count);
    read(63, &[number], &errors_cell(count, sum)[..rows])
}

fn signature(command: u8, number: u8, word: u16) -> Step {
    asked("signature", command, number, word)
}

fn refused(number: u8, frame: &[u8]) -> Step {
    serve("refused", frame).refused(number)
}

/// Part 3 of table 12 is sent three times, the last time as it is. Part 4 comes
/// between, and so does part 3 of table 2.
fn part_twice() -> Vec<Step> {
    vec![
        mask(0x0F),
        part("first", (12, 3), 0x004, 0x1234, 0x1234),
        read_part((12, 3), 0x1234),
        signature(61, 12, 0x1234),
        part("table 2", (2, 3), 0x004, 0x0BCD, 0x0BCD),
        part("beside it", (12, 4), 0x00C, 0x0100, 0x1334),
        part("other bytes", (12, 3), 0x00C, 0x0567, 0x0667),
        mode(0xFF),
        read_part((12, 3), 0x0567),
        signature(61, 12, 0x0667),
        errors("another item", (1, 2), 0x0133, 0x0133),
        read(50, &[], &[0x0F]),
        part("as it is", (12, 3), 0x00C, 0x0567, 0x0667),
        signature(61, 2, 0x0BCD),
        read_part((12, 4), 0x0100),
    ]
}

/// Part 4 comes behind the other bytes of part 3, and before it is asked once
/// more.
fn part_twice_otherwise() -> Vec<Step> {
    vec![
        errors("another item", (1, 2), 0x0133, 0x0133),
        mode(0xFF),
        part("table 2", (2, 3), 0x004, 0x0BCD, 0x0BCD),
        signature(61, 2, 0x0BCD),
        part("first", (12, 3), 0x004, 0x1234, 0x1234),
        signature(61, 12, 0x1234),
        read_part((12, 3), 0x1234),
        part("other bytes", (12, 3), 0x004, 0x0567, 0x0567),
        read_part((12, 3), 0x0567),
        part("beside it", (12, 4), 0x00C, 0x0100, 0x0667),
        read_part((12, 4), 0x0100),
        signature(61, 12, 0x0667),
        part("as it is", (12, 3), 0x00C, 0x0567, 0x0667),
        mask(0x0F),
        read(50, &[], &[0x0F]),
    ]
}

/// A desk, 1 or 2, and a part that it sends.
type Sent = (u16, u8);

/// Both desks send the eleven parts of table 5 in turn, the second one behind
/// the first.
fn interleaved() -> Vec<Sent> {
    let mut sent = vec![(1, 1)];
    for part in 2..=11 {
        sent.extend([(1, part), (2, part - 1)]);
    }
    sent.push((2, 11));
    sent
}

fn from_last() -> Vec<Sent> {
    let parts = (1..=11).rev();
    parts.flat_map(|part| [(1, part), (2, part)]).collect()
}

fn one_by_one() -> Vec<Sent> {
    let of = |desk| (1..=11).rev().map(move |part| (desk, part));
    of(1).chain(of(2)).collect()
}

/// A part adds up to 111h times its number from the first desk, and to 222h
/// times it from the second. So it is the second's that is left in each, and
/// 66 times 222h, 8CC4h, is the signature.
fn two_desks(sent: &[Sent]) -> Vec<Step> {
    let (mut sums, mut held) = ([0; 11], 0);
    let mut steps = Vec::new();
    for &(desk, number) in sent {
        let sum = 0x0111 * desk * u16::from(number);
        sums[usize::from(number) - 1] = sum;
        held |= 1 << (number - 1);
        steps.push(part("sent", (5, number), held, sum, sums.iter().sum()));
    }
    steps.push(signature(61, 5, 0x8CC4));
    for number in [1, 11] {
        steps.push(read_part((5, number), 0x0222 * u16::from(number)));
    }
    steps
}

/// Table 4 becomes shorter and table 5 longer.
fn error_tables() -> Vec<Step> {
    vec![
        errors("21 rows", (4, 21), 0x2ABD, 0x2ABD),
        errors("1 row", (5, 1), 0x0101, 0x0101),
        read_errors((4, 21), 0x2ABD),
        signature(64, 4, 0x2ABD),
        errors("1 row over 21", (4, 1), 0x0012, 0x0012),
        errors("21 rows over 1", (5, 21), 0x2000, 0x2000),
        read_errors((4, 1), 0x0012),
        signature(64, 4, 0x0012),
        read_errors((5, 21), 0x2000),
        signature(64, 5, 0x2000),
        errors("21 rows again", (4, 21), 0x2ABD, 0x2ABD),
        errors("1 row again", (4, 1), 0x0012, 0x0012),
    ]
}

const ERROR_TABLES: [Named; 2] = [
    (
        "order, error tables",
        &[0, 1, 2, 3, 4, 5, 6, 7, 8, 9, 10, 11],
    ),
    (
        "order, error tables, the longer one first",
        &[1, 5, 9, 8, 0, 3, 2, 4, 7, 6, 10, 11],
    ),
];

/// Of each kind a cell is written, read and written over, all but a part.
fn each_kind() -> Vec<Step> {
    vec![
        constants("first", 6, 0x0123, 0x0123),
        read_constants(6, 0x0123),
        signature(55, 6, 0x0123),
        constants("other bytes", 6, 0x10F0, 0x10F0),
        read_constants(6, 0x10F0),
        signature(55, 6, 0x10F0),
        errors("2 rows", (7, 2), 0x0203, 0x0203),
        read_errors((7, 2), 0x0203),
        signature(64, 7, 0x0203),
        errors("20 rows", (7, 20), 0x2000, 0x2000),
        read_errors((7, 20), 0x2000),
        signature(64, 7, 0x2000),
        mask(0x0F),
        read(50, &[], &[0x0F]),
        mask(0xF0),
        read(50, &[], &[0xF0]),
        clock(&CLOCK),
        read(78, &[], &CLOCK),
        clock(&LATER),
        read(78, &[], &LATER),
        mode(0xFF),
        mode(0x00),
        mode(0xFF),
        constants("first again", 6, 0x0123, 0x0123),
        signature(55, 6, 0x0123),
    ]
}

const EACH_KIND: [Named; 2] = [
    (
        "order, each kind",
        &[
            0, 1, 2, 3, 4, 5, 6, 7, 8, 9, 10, 11, 12, 13, 14, 15, 16, 17, 18, 19, 20, 21, 22, 23,
            24,
        ],
    ),
    (
        "order, each kind, by turns",
        &[
            20, 16, 12, 6, 0, 21, 17, 13, 8, 2, 22, 18, 14, 7, 1, 19, 15, 9, 3, 11, 5, 10, 4, 23,
            24,
        ],
    ),
];

/// Behind each write frames for the same cell that are refused, with other bytes
/// than it has.
fn refused_among() -> Vec<Step> {
    let rows = part_cell(0x7F80);
    let sent = |address, rows: &[u8]| ask(address, 59, &[&[7, 11], rows].concat());
    let mut wrong = sent(1, &rows);
    wrong[9] = b'0'; // the checksum is no longer its own
    let mut no_digit = sent(1, &rows);
    no_digit[9] = b'g';
    let gas = [&[0, 1, 1, 1, 14], &[0; 79][..]].concat();
    vec![
        part("first", (7, 11), 0x400, 0x0111, 0x0111),
        refused(6, &wrong),
        read_part((7, 11), 0x0111),
        refused(7, &sent(2, &rows)),
        part("other bytes", (7, 11), 0x400, 0x0222, 0x0222),
        refused(9, &sent(1, &rows[..127])),
        refused(5, &no_digit),
        signature(61, 7, 0x0222),
        mask(0x3C),
        refused(9, &ask(1, 51, &[0xC3, 0xC3])),
        read(50, &[], &[0x3C]),
        clock(&CLOCK),
        refused(11, &ask(1, 77, &[1, 1, 24, 1, 1, 1, 1, 0, 0])),
        read(78, &[], &CLOCK),
        constants("first", 0, 0x0045, 0x0045),
        refused(11, &ask(1, 53, &gas)),
        read_constants(0, 0x0045),
        mode(0xFF),
        refused(11, &ask(1, 76, &[0x01])),
        refused(8, &ask(1, 65, &[8])),
        refused(11, &ask(1, 62, &[8, 2, 5, 0, 1, 5, 0, 2])),
        errors("first", (8, 3), 0x0100, 0x0100),
        read_errors((8, 3), 0x0100),
        refused(10, &ask(1, 62, &[8, 2, 5, 0, 1])),
    ]
}

const REFUSED_AMONG: [Named; 3] = [
    (
        "order, refused among others",
        &[
            0, 1, 2, 3, 4, 5, 6, 7, 8, 9, 10, 11, 12, 13, 14, 15, 16, 17, 18, 19, 20, 21, 22, 23,
        ],
    ),
    (
        "order, refused first",
        &[
            23, 20, 19, 18, 15, 12, 9, 6, 5, 3, 1, 21, 22, 17, 14, 16, 11, 13, 8, 10, 0, 2, 4, 7,
        ],
    ),
    (
        "order, refused last",
        &[
            8, 10, 0, 2, 4, 7, 17, 21, 22, 14, 16, 11, 13, 1, 3, 5, 6, 9, 12, 15, 18, 19, 20, 23,
        ],
    ),
];

/// Frames that are equal to the byte, some of them with other replies.
fn equal_frames() -> Vec<Step> {
    vec![
        read(50, &[], &[0x00]),
        mask(0x0F),
        read(50, &[], &[0x0F]),
        mask(0xF0),
        read(50, &[], &[0xF0]),
        mask(0x0F),
        read(50, &[], &[0x0F]),
        signature(61, 1, 0x0000),
        signature(61, 1, 0x0000),
        mode(0xFF),
        mode(0xFF),
        part("first", (1, 1), 0x001, 0x0ABC, 0x0ABC),
        part("as it is", (1, 1), 0x001, 0x0ABC, 0x0ABC),
        signature(61, 1, 0x0ABC),
    ]
}

const EQUAL_FRAMES: [Named; 2] = [
    (
        "order, equal frames",
        &[0, 1, 2, 3, 4, 5, 6, 7, 8, 9, 10, 11, 12, 13],
    ),
    (
        "order, equal frames, otherwise",
        &[9, 8, 0, 7, 11, 1, 10, 2, 12, 3, 13, 4, 5, 6],
    ),
];

/// A write of each kind of cell, and reads of other cells.
fn no_clash() -> Vec<Step> {
    vec![
        mask(0x0F),
        mode(0xFF),
        clock(&CLOCK),
        constants("alone", 0, 0x0123, 0x0123),
        errors("alone", (1, 2), 0x0203, 0x0203),
        part("alone", (1, 1), 0x001, 0x1234, 0x1234),
        read(54, &[1], &[0; 83]),
        signature(55, 7, 0x0000),
        read(60, &[1, 2], &[0; 128]),
        read(60, &[2, 1], &[0; 128]),
        signature(61, 11, 0x0000),
        read(63, &[2], &[0]),
        signature(64, 8, 0x0000),
        part("alone", (12, 1), 0x001, 0x4321, 0x4321),
    ]
}

const NO_CLASH: [Named; 2] = [
    (
        "order, no clash",
        &[0, 1, 2, 3, 4, 5, 6, 7, 8, 9, 10, 11, 12, 13],
    ),
    (
        "order, no clash, backwards",
        &[13, 12, 11, 10, 9, 8, 7, 6, 5, 4, 3, 2, 1, 0],
    ),
];

/// The words of table 11, channel 2 and error table 3 are false from the start.
fn false_words(name: &'static str, steps: Vec<Step>) -> Session {
    let mut session = Session::new(name, steps);
    for (command, number, word) in [
        (59, 11, [0xCD, 0xEF]),
        (53, 2, [0x00, 0x01]),
        (62, 3, [0xFF, 0xFF]),
    ] {
        let item = item(command, number).expect("the command can name it");
        session = session.holding(item.word, &word);
    }
    session
}

/// Each word stays false by as much.
fn false_by_parts() -> Vec<Step> {
    vec![
        part("first", (11, 2), 0x002, 0x7F00, 0x4CEF),
        part("beside it", (11, 7), 0x042, 0x3421, 0x8110),
        part("other bytes", (11, 2), 0x042, 0x0100, 0x0310),
        signature(61, 11, 0x0310),
        constants("first", 2, 0x0200, 0x0201),
        signature(55, 2, 0x0201),
        constants("other bytes", 2, 0x0100, 0x0101),
        errors("3 rows", (3, 3), 0x0300, 0x02FF),
        errors("1 row", (3, 1), 0x0011, 0x0010),
        signature(64, 3, 0x0010),
    ]
}

fn false_by_parts_otherwise() -> Vec<Step> {
    vec![
        errors("3 rows", (3, 3), 0x0300, 0x02FF),
        part("beside it", (11, 7), 0x040, 0x3421, 0x0210),
        errors("1 row", (3, 1), 0x0011, 0x0010),
        part("first", (11, 2), 0x042, 0x7F00, 0x8110),
        constants("first", 2, 0x0200, 0x0201),
        part("other bytes", (11, 2), 0x042, 0x0100, 0x0310),
        signature(55, 2, 0x0201),
        signature(64, 3, 0x0010),
        signature(61, 11, 0x0310),
        constants("other bytes", 2, 0x0100, 0x0101),
    ]
}

/// An image with bytes that no write could leave: part 5 of table 3 is not held
/// and has bytes, part 6 is held and has none. The table's word is true, that of
/// error table 2, with rows behind its count, is not.
fn older(name: &'static str, steps: Vec<Step>) -> Session {
    let last_constants = item(53, 7).expect("a channel");
    Session::new(name, steps)
        .holding(6, &[0xEE; 11])
        .holding(21, &[0x00, 0x20])
        .holding(PART_5, &[0x11; 128])
        .holding(23_757, &[0x08, 0x80])
        .holding(FIRST_ERRORS + 64, &[0x02; 64])
        .holding(last_constants.offset, &[0xFF; 83])
}

/// 880h left with part 5, and 80h with error table 2.
fn over_older() -> Vec<Step> {
    vec![
        part("not held", (3, 5), 0x030, 0x0010, 0x0010),
        part("held and empty", (3, 6), 0x030, 0x0123, 0x0133),
        part("zeros", (3, 5), 0x030, 0x0000, 0x0123),
        signature(61, 3, 0x0123),
        errors("1 row", (2, 1), 0x0005, 0xFF85),
        errors("2 rows", (2, 2), 0x0100, 0x0080),
        signature(64, 2, 0x0080),
        read(50, &[], &[0xEE]),
        read(78, &[], &[0xEE; 9]),
        read(54, &[7], &[0xFF; 83]),
        read(60, &[3, 7], &[0; 128]),
    ]
}

fn over_older_otherwise() -> Vec<Step> {
    vec![
        read(54, &[7], &[0xFF; 83]),
        part("held and empty", (3, 6), 0x020, 0x0123, 0x09A3),
        errors("1 row", (2, 1), 0x0005, 0xFF85),
        read(60, &[3, 7], &[0; 128]),
        part("not held", (3, 5), 0x030, 0x0010, 0x0133),
        read(78, &[], &[0xEE; 9]),
        part("zeros", (3, 5), 0x030, 0x0000, 0x0123),
        errors("2 rows", (2, 2), 0x0100, 0x0080),
        read(50, &[], &[0xEE]),
        signature(64, 2, 0x0080),
        signature(61, 3, 0x0123),
    ]
}

/// On that image, sealed: writes are refused, what is read is what was there,
/// and no two clash.
fn sealed_list() -> Vec<Step> {
    let not_written = |command, data: &[u8]| refused(16, &ask(1, command, data));
    let constants = [&[7], &constants_cell(0x0123)[..]].concat();
    let rows = |sum| [&[3, 5], &part_cell(sum)[..]].concat();
    let steps = vec![
        not_written(51, &[0x0F]),
        read(50, &[], &[0xEE]),
        not_written(59, &rows(0x1234)),
        read(60, &[3, 5], &[0x11; 128]),
        not_written(59, &rows(0x0567)),
        signature(61, 3, 0x0880),
        not_written(59, &rows(0x1234)),
        not_written(62, &[2, 1, 0x14, 0, 5]),
        read(63, &[2], &[0x02; 7]),
        signature(64, 2, 0x0000),
        not_written(62, &[2, 2, 0x14, 0, 5, 0x15, 0, 5]),
        not_written(53, &constants),
        read(54, &[7], &[0xFF; 83]),
        signature(55, 7, 0x0000),
        not_written(53, &constants),
        not_written(77, &CLOCK),
        read(78, &[], &[0xEE; 9]),
        not_written(77, &LATER),
        not_written(76, &[0xFF]),
        not_written(76, &[0x00]),
        not_written(51, &[0xF0]),
        read(50, &[], &[0xEE]),
        refused(6, b":0132CE\r\n"),
    ];
    steps.into_iter().map(sealed).collect()
}

/// Two writes of one cell by each of the six commands.
fn one_write(command: u8) -> Step {
    match command {
        51 => mask(0x0F),
        53 => constants("one", 3, 0x0333, 0x0333),
        59 => part("one", (13, 9), 0x100, 0x3333, 0x3333),
        62 => errors("one", (3, 3), 0x0433, 0x0433),
        76 => mode(0xFF),
        _ => clock(&CLOCK),
    }
}

fn other_write(command: u8) -> Step {
    match command {
        51 => mask(0xF0),
        53 => constants("other", 3, 0x0222, 0x0222),
        59 => part("other", (13, 9), 0x100, 0x0222, 0x0222),
        62 => errors("other", (3, 1), 0x0022, 0x0022),
        76 => mode(0x00),
        _ => clock(&LATER),
    }
}

/// A read of that cell behind the one write, and on a fresh image.
fn behind(command: u8) -> Step {
    match command {
        50 => read(50, &[], &[0x0F]),
        54 => read_constants(3, 0x0333),
        55 => signature(55, 3, 0x0333),
        60 => read_part((13, 9), 0x3333),
        61 => signature(61, 13, 0x3333),
        63 => read_errors((3, 3), 0x0433),
        64 => signature(64, 3, 0x0433),
        _ => read(78, &[], &CLOCK),
    }
}

fn before(command: u8) -> Step {
    match command {
        50 => read(50, &[], &[0x00]),
        54 => read(54, &[3], &[0; 83]),
        60 => read(60, &[13, 9], &[0; 128]),
        61 => signature(61, 13, 0x0000),
        63 => read(63, &[3], &[0]),
        78 => read(78, &[], &[0; 9]),
        _ => signature(command, 3, 0x0000),
    }
}

/// A command that writes a cell, and one that reads it.
const WRITE_AND_READ: [(u8, u8); 8] = [
    (51, 50),
    (53, 54),
    (53, 55),
    (59, 60),
    (59, 61),
    (62, 63),
    (62, 64),
    (77, 78),
];

/// Two frames that clash, and then the same the other way round. A read shows
/// what the write leaves, or what was there before it, and the image has the
/// write that came last.
fn not_kept() -> Vec<Step> {
    let mut lists = Vec::new();
    for (write, read) in WRITE_AND_READ {
        lists.push([one_write(write), behind(read)]);
        lists.push([before(read), one_write(write)]);
    }
    for command in WRITING {
        lists.push([one_write(command), other_write(command)]);
        lists.push([other_write(command), one_write(command)]);
    }
    let mut image = vec![0; 23_817];
    image[..6].copy_from_slice(b"IZK\x00\x02\x01");
    let mut steps = Vec::new();
    for list in lists {
        steps.push(fresh("again", 1).stores(0, &image));
        steps.extend(list);
    }
    steps
}
