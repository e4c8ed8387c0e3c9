//! Fixed calls of document 02, wish 4: the whole body of a received frame,
//! checksum included, is added, the carries are dropped, and 0 must be left.
//! Refusal 6 stays as it was, so document 01 gives each outcome here as well.
//! Sums that are named are plain ones, with their carries.

use super::{serve, take_apart, OfFrame, Session, Step, FIRST_ERRORS, FIRST_TABLE};
use crate::streams::spelled;

const MASK: usize = 6;

/// A frame to serve, and its body.
type Row = (Step, Vec<u8>);

pub fn sessions() -> Vec<Session> {
    vec![
        Session::new("every checksum, served", served(every_checksum())),
        Session::new("every checksum, taken apart", taken_apart(every_checksum())),
        Session::new("a byte of a short body, served", served(one_byte(short()))),
        Session::new(
            "a byte of a short body, taken apart",
            taken_apart(one_byte(short())),
        ),
        Session::new(
            "a byte of the longest body, served",
            served(one_byte(longest())),
        ),
        Session::new(
            "a byte of the longest body, taken apart",
            taken_apart(one_byte(longest())),
        ),
        Session::new("carries, served", served(carries())),
        Session::new("carries, taken apart", taken_apart(carries())),
        Session::new("carries, built", built(carries())),
        Session::new("plain sums, served", served(plain_sums())),
        Session::new("plain sums, taken apart", taken_apart(plain_sums())),
        Session::new("plain sums, built", built(plain_sums())),
        Session::new("wrong tests, served", served(wrong_tests())),
        Session::new("wrong tests, taken apart", taken_apart(wrong_tests())),
        Session::new("wrong tests, built", built(wrong_tests())),
        Session::new("the same total, served", served(same_total())),
        Session::new("the same total, taken apart", taken_apart(same_total())),
        Session::new("the same total, built", built(same_total())),
        Session::new("before 6, served", before(serve)),
        Session::new("before 6, taken apart", before(take_apart)),
        Session::new("behind 6, served", served(behind())),
        Session::new("behind 6, taken apart", taken_apart(behind())),
        one_call("wrong checksum, unusable image", serve, 1).spoiled(5, 0),
        one_call("wrong checksum, short output, served", serve, 2).output(268),
        one_call("wrong checksum, short output, apart", take_apart, 2).output(131),
    ]
}

fn one_call(name: &'static str, call: OfFrame, number: u8) -> Session {
    let step = call("P3", b":0132CE\r\n").refused(number);
    Session::new(name, vec![step])
}

fn served(rows: Vec<Row>) -> Vec<Step> {
    rows.into_iter().map(|(step, _)| step).collect()
}

/// What serving refuses 6, taking apart refuses 6. All else that is written
/// here has passed the test, and its contents come as they stand.
fn taken_apart(rows: Vec<Row>) -> Vec<Step> {
    let apart = |(step, body): Row| {
        let apart = take_apart(step.rule, &step.input);
        match step.number {
            6 => apart.refused(6),
            _ => apart.writes(&body[..body.len() - 1]),
        }
    };
    rows.into_iter().map(apart).collect()
}

/// Building computes the checksum as before, so the contents of each frame
/// that passes the test give that frame.
fn built(rows: Vec<Row>) -> Vec<Step> {
    let right = rows.into_iter().filter(|(step, _)| step.number != 6);
    let built = |(step, body): Row| {
        let contents = &body[..body.len() - 1];
        Step::new(step.rule, 'B', contents).writes(&step.input)
    };
    right.map(built).collect()
}

fn refused(rule: &'static str, body: &[u8], number: u8) -> Row {
    (serve(rule, &spelled(body)).refused(number), body.to_vec())
}

fn wrong(rule: &'static str, body: &[u8]) -> Row {
    refused(rule, body, 6)
}

/// Command 51 with a right checksum: it writes the mask and echoes.
fn mask(rule: &'static str, body: [u8; 4]) -> Row {
    let frame = spelled(&body);
    let step = serve(rule, &frame).writes(&frame);
    (step.stores(MASK, &[body[2]]), body.to_vec())
}

/// Command 62 with a right checksum and one row for error table 1.
fn errors(rule: &'static str, body: [u8; 8]) -> Row {
    let step = serve(rule, &spelled(&body))
        .replies(":013E01C0")
        .stores(FIRST_ERRORS, &body[3..7])
        .signs(62, 1, &body[3..7]);
    (step, body.to_vec())
}

/// Command 59 for part 11 of table 12. Its bytes before the rows add up to
/// 53h.
fn part_body(rows: &[u8; 128], checksum: u8) -> Vec<u8> {
    [&[0x01, 0x3B, 0x0C, 0x0B], &rows[..], &[checksum]].concat()
}

/// That command with a right checksum.
fn part(rule: &'static str, rows: &[u8; 128], checksum: u8) -> Row {
    let body = part_body(rows, checksum);
    let step = serve(rule, &spelled(&body))
        .replies(":013B0C0BAD")
        .stores(FIRST_TABLE + 9 * 1408 + 10 * 128, rows)
        .stores(35, &[0x04, 0x00])
        .signs(59, 12, rows);
    (step, body)
}

/// P1's contents with each of the 256 checksums.
fn every_checksum() -> Vec<Row> {
    let with = |checksum| {
        let body = [0x01, 0x32, checksum];
        match checksum {
            0xCD => {
                let step = serve("P1", &spelled(&body));
                (step.replies(":013200CD"), body.to_vec())
            }
            _ => wrong("P1 but for its checksum", &body),
        }
    };
    (0..=255).map(with).collect()
}

fn short() -> Row {
    mask("P2", [0x01, 0x33, 0x0F, 0xBD])
}

/// The rows add up to 1FC0h, which with the 53h before them makes 2013h.
fn longest() -> Row {
    part("the longest body", &rising_rows(), 0xED)
}

fn rising_rows() -> [u8; 128] {
    std::array::from_fn(|row| row as u8)
}

/// A right frame, and then ones with a byte changed alone: every byte by 1,
/// and the first, the middle and the last, which is the checksum, by others.
fn one_byte(right: Row) -> Vec<Row> {
    let body = right.1.clone();
    let last = body.len() - 1;
    let mut changes: Vec<(usize, u8)> = (0..=last).map(|place| (place, 1)).collect();
    for place in [0, last / 2, last] {
        changes.extend([(place, 16), (place, 128), (place, 255)]);
    }
    let mut rows = vec![right];
    for (place, change) in changes {
        let mut changed = body.clone();
        changed[place] = changed[place].wrapping_add(change);
        rows.push(wrong("one byte changed", &changed));
    }
    rows
}

/// With n bytes FFh and the checksum n, the sum is n times 256. The image
/// has another address than FFh.
fn carries() -> Vec<Row> {
    let with = |n: u8| {
        let body = |checksum| [vec![0xFF; usize::from(n)], vec![checksum]].concat();
        [
            refused("bytes FFh", &body(n), 7),
            wrong("bytes FFh, one too low", &body(n - 1)),
            wrong("bytes FFh, one too high", &body(n + 1)),
        ]
    };
    (2..=132).flat_map(with).collect()
}

/// No image has address 0, so serving refuses a sum of 0 as well.
pub(super) fn plain_sums() -> Vec<Row> {
    vec![
        refused("sum 0", &[0x00, 0x00, 0x00], 7),
        refused("sum 0, the longest body", &[0x00; 133], 7),
        wrong("sum 1", &[0x00, 0x00, 0x01]),
        wrong("sum 128", &[0x80, 0x00, 0x00]),
        wrong("sum 255", &[0x00, 0x00, 0xFF]),
        refused("sum 256, checksum 0", &[0x80, 0x80, 0x00], 7),
        refused("sum 256", &[0x80, 0x00, 0x80], 7),
        refused("sum 256", &[0x00, 0xFF, 0x01], 7),
        wrong("sum 255", &[0x01, 0x33, 0x0F, 0xBC]),
        mask("sum 256", [0x01, 0x33, 0x0F, 0xBD]),
        wrong("sum 257", &[0x01, 0x33, 0x0F, 0xBE]),
        wrong("sum 255, checksum 0", &[0x01, 0x33, 0xCB, 0x00]),
        mask("sum 256, checksum 0", [0x01, 0x33, 0xCC, 0x00]),
        wrong("sum 257, checksum 0", &[0x01, 0x33, 0xCD, 0x00]),
        wrong("sum 511", &[0x01, 0x33, 0xFF, 0xCC]),
        mask("sum 512", [0x01, 0x33, 0xFF, 0xCD]),
        wrong("sum 513", &[0x01, 0x33, 0xFF, 0xCE]),
        wrong("sum 765", &[0xFF, 0xFF, 0xFF]),
        wrong("sum 32,767", &part_body(&[0xFF; 128], 0x2C)),
        part("sum 32,768", &[0xFF; 128], 0x2D),
        wrong("sum 32,769", &part_body(&[0xFF; 128], 0x2E)),
        wrong("sum 33,915, the highest", &[0xFF; 133]),
    ]
}

/// Tests that are not the rule: for each, right frames that it would refuse
/// and wrong ones that it would take.
pub(super) fn wrong_tests() -> Vec<Row> {
    let mut rows = vec![
        // The checksum left out of the total.
        mask("contents 34h", [0x01, 0x33, 0x00, 0xCC]),
        wrong("contents 100h", &[0x01, 0x33, 0xCC, 0x01]),
        wrong("contents 100h", &[0x01, 0x33, 0xCC, 0xFF]),
        // The first byte left out.
        mask("FFh behind the first byte", [0x01, 0x33, 0x10, 0xBC]),
        wrong("100h behind the first byte", &[0x01, 0x33, 0x10, 0xBD]),
        // A remainder by 255, as if the carries were added in again at the low
        // end of the total.
        mask("100h, by 255 it is 1", [0x01, 0x33, 0x20, 0xAC]),
        wrong("FFh, by 255 it is 0", &[0x01, 0x33, 0x20, 0xAB]),
        wrong("1FEh, by 255 it is 0", &[0x01, 0x33, 0xFF, 0xCB]),
        // The same in what the checksum is held to: 124h becomes 25h.
        mask("DCh for 24h", [0x01, 0x33, 0xF0, 0xDC]),
        wrong("DBh for 25h", &[0x01, 0x33, 0xF0, 0xDB]),
        // The carries kept. A wrong frame that this takes there is none: it
        // takes a sum of 0 alone.
        mask("100h is not 0", [0x01, 0x33, 0x30, 0x9C]),
        mask("200h is not 0", [0x01, 0x33, 0xE0, 0xEC]),
        // The sum not inverted. That of 80h is its own checksum.
        mask("8Ch for 74h", [0x01, 0x33, 0x40, 0x8C]),
        wrong("74h for 74h", &[0x01, 0x33, 0x40, 0x74]),
        mask("80h for 80h", [0x01, 0x33, 0x4C, 0x80]),
        // Inverted, but 1 not added.
        mask("7Ch for 84h", [0x01, 0x33, 0x50, 0x7C]),
        wrong("7Bh for 84h", &[0x01, 0x33, 0x50, 0x7B]),
        // The carries between the bits dropped, too: an exclusive or.
        mask("01h, 33h and 60h give 52h", [0x01, 0x33, 0x60, 0x6C]),
        wrong("01h, 33h and 60h give 52h", &[0x01, 0x33, 0x60, 0x52]),
    ];
    rows.extend(first_128_bytes());
    rows
}

/// Wrong as well: only the first 128 bytes added.
fn first_128_bytes() -> Vec<Row> {
    let mut last_row = [0x00; 128];
    last_row[127] = 0x01;
    let mut byte_128 = [0x00; 128];
    byte_128[123] = 0xAD; // 4 bytes stand before the rows
    let bytes_129 = |byte_128, checksum| {
        let contents = [&[0x01, 0x3B], &[0x00; 125][..], &[byte_128]].concat();
        [contents, vec![checksum]].concat()
    };
    vec![
        part("53h in 128 bytes, 100h in 133", &last_row, 0xAC),
        wrong("100h in 128 bytes", &part_body(&byte_128, 0x01)),
        refused("3Ch in 128 bytes", &bytes_129(0x00, 0xC4), 9),
        wrong("100h in 128 bytes", &bytes_129(0xC4, 0x01)),
    ]
}

/// What the test cannot see is accepted as it stands.
fn same_total() -> Vec<Row> {
    let mut swapped_rows = rising_rows();
    swapped_rows.swap(0, 127);
    let mut swapped_ends = part_body(&rising_rows(), 0xED);
    swapped_ends.swap(0, 132);
    vec![
        errors("P10", [0x01, 0x3E, 0x01, 0x01, 0x14, 0x00, 0x05, 0xA6]),
        errors(
            "one up, one down",
            [0x01, 0x3E, 0x01, 0x01, 0x15, 0x00, 0x04, 0xA6],
        ),
        errors(
            "two high bits",
            [0x01, 0x3E, 0x01, 0x01, 0x94, 0x00, 0x85, 0xA6],
        ),
        errors(
            "two bytes swapped",
            [0x01, 0x3E, 0x01, 0x01, 0x00, 0x14, 0x05, 0xA6],
        ),
        errors(
            "a byte and the checksum swapped",
            [0x01, 0x3E, 0x01, 0x01, 0x14, 0x00, 0xA6, 0x05],
        ),
        mask("P2, mask and checksum swapped", [0x01, 0x33, 0xBD, 0x0F]),
        mask("P2, two high bits", [0x01, 0x33, 0x8F, 0x3D]),
        refused("P2 as a command 50", &[0x01, 0x32, 0x10, 0xBD], 9),
        refused("P1, one up, one down", &[0x02, 0x31, 0xCD], 7),
        refused("P1, one down, one up", &[0x00, 0x33, 0xCD], 7),
        refused("P1, first two swapped", &[0x32, 0x01, 0xCD], 7),
        refused("P1, last two swapped", &[0x01, 0xCD, 0x32], 8),
        refused("P1, ends swapped", &[0xCD, 0x32, 0x01], 7),
        part("two rows swapped", &swapped_rows, 0xED),
        refused("ends of the longest body swapped", &swapped_ends, 7),
    ]
}

/// Frames that are refused before their sum is tested, by serving and taking
/// apart alike.
pub(super) fn before(call: OfFrame) -> Vec<Step> {
    vec![
        call("no body, sum 0", b":\r\n").refused(3),
        call("a body of 1 byte, sum 0", b":00\r\n").refused(3),
        call("a body of 2 bytes, sum 256", b":01FF\r\n").refused(3),
        call("a body of 2 bytes, sum 255", b":01FE\r\n").refused(3),
        call("a body of 134 bytes, sum 0", &spelled(&[0x00; 134])).refused(3),
        call("a body of 134 bytes, sum 1", &{
            let mut body = [0x00; 134];
            body[0] = 0x01;
            spelled(&body)
        })
        .refused(3),
        call("3 before 6", b":0132CE0\r\n").refused(3),
        call("4 before 6", b";0132CE\r\n").refused(4),
        call("4 before 6", b":0132CEA\n").refused(4),
        // No digit in place of g would make the sum 256.
        call("5 before 6", b":g132CE\r\n").refused(5),
        call("5 before 6", b":0g32BE\r\n").refused(5),
        call("5 before 6", b":01g2CE\r\n").refused(5),
        call("5 before 6", b":0132gE\r\n").refused(5),
        call("5 before 6", b":0132Bg\r\n").refused(5),
        // 001 would read a colon as 3.
        call("5, sum 256 by 001's rule", b":01:2CD\r\n").refused(5),
        call("5, sum 257 by 001's rule", b":01:2CE\r\n").refused(5),
    ]
}

/// Serving refuses these for something else once their sum is right.
fn behind() -> Vec<Row> {
    vec![
        wrong("6 before 7", &[0x02, 0x32, 0xCD]),
        refused("7 alone", &[0x02, 0x32, 0xCC], 7),
        wrong("6 before 8", &[0x01, 0x53, 0xAD]),
        refused("8 alone", &[0x01, 0x53, 0xAC], 8),
        wrong("6 before 9", &[0x01, 0x32, 0x00, 0xCE]),
        refused("9 alone", &[0x01, 0x32, 0x00, 0xCD], 9),
        wrong("6 before 10", &[0x01, 0x36, 0x08, 0xC2]),
        refused("10 alone", &[0x01, 0x36, 0x08, 0xC1], 10),
        wrong("6 before 11", &[0x01, 0x4C, 0x01, 0xB3]),
        refused("11 alone", &[0x01, 0x4C, 0x01, 0xB2], 11),
    ]
}
