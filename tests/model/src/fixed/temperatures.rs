//! Fixed calls of document 02, wish 5: a temperature byte up to 128 is itself,
//! a larger one is itself less 256, and the rise rule of command 62 reads this
//! meaning. Bytes are stored and returned as they were sent, and no number but
//! that command's 11 moves. Where an outcome is not written out beside its
//! frame, it follows from the places of the bytes in `RISING`.

use super::{
    constants_taken, serve, take_apart, true_word, word_of, zero_constants, Session, Step,
    FIRST_ERRORS, FIRST_TABLE,
};
use crate::streams::ask;

/// Every temperature byte, from -127 to +128.
pub const RISING: [u8; 256] = [
    0x81, 0x82, 0x83, 0x84, 0x85, 0x86, 0x87, 0x88, 0x89, 0x8A, 0x8B, 0x8C, 0x8D, 0x8E, 0x8F, 0x90,
    0x91, 0x92, 0x93, 0x94, 0x95, 0x96, 0x97, 0x98, 0x99, 0x9A, 0x9B, 0x9C, 0x9D, 0x9E, 0x9F, 0xA0,
    0xA1, 0xA2, 0xA3, 0xA4, 0xA5, 0xA6, 0xA7, 0xA8, 0xA9, 0xAA, 0xAB, 0xAC, 0xAD, 0xAE, 0xAF, 0xB0,
    0xB1, 0xB2, 0xB3, 0xB4, 0xB5, 0xB6, 0xB7, 0xB8, 0xB9, 0xBA, 0xBB, 0xBC, 0xBD, 0xBE, 0xBF, 0xC0,
    0xC1, 0xC2, 0xC3, 0xC4, 0xC5, 0xC6, 0xC7, 0xC8, 0xC9, 0xCA, 0xCB, 0xCC, 0xCD, 0xCE, 0xCF, 0xD0,
    0xD1, 0xD2, 0xD3, 0xD4, 0xD5, 0xD6, 0xD7, 0xD8, 0xD9, 0xDA, 0xDB, 0xDC, 0xDD, 0xDE, 0xDF, 0xE0,
    0xE1, 0xE2, 0xE3, 0xE4, 0xE5, 0xE6, 0xE7, 0xE8, 0xE9, 0xEA, 0xEB, 0xEC, 0xED, 0xEE, 0xEF, 0xF0,
    0xF1, 0xF2, 0xF3, 0xF4, 0xF5, 0xF6, 0xF7, 0xF8, 0xF9, 0xFA, 0xFB, 0xFC, 0xFD, 0xFE, 0xFF, 0x00,
    0x01, 0x02, 0x03, 0x04, 0x05, 0x06, 0x07, 0x08, 0x09, 0x0A, 0x0B, 0x0C, 0x0D, 0x0E, 0x0F, 0x10,
    0x11, 0x12, 0x13, 0x14, 0x15, 0x16, 0x17, 0x18, 0x19, 0x1A, 0x1B, 0x1C, 0x1D, 0x1E, 0x1F, 0x20,
    0x21, 0x22, 0x23, 0x24, 0x25, 0x26, 0x27, 0x28, 0x29, 0x2A, 0x2B, 0x2C, 0x2D, 0x2E, 0x2F, 0x30,
    0x31, 0x32, 0x33, 0x34, 0x35, 0x36, 0x37, 0x38, 0x39, 0x3A, 0x3B, 0x3C, 0x3D, 0x3E, 0x3F, 0x40,
    0x41, 0x42, 0x43, 0x44, 0x45, 0x46, 0x47, 0x48, 0x49, 0x4A, 0x4B, 0x4C, 0x4D, 0x4E, 0x4F, 0x50,
    0x51, 0x52, 0x53, 0x54, 0x55, 0x56, 0x57, 0x58, 0x59, 0x5A, 0x5B, 0x5C, 0x5D, 0x5E, 0x5F, 0x60,
    0x61, 0x62, 0x63, 0x64, 0x65, 0x66, 0x67, 0x68, 0x69, 0x6A, 0x6B, 0x6C, 0x6D, 0x6E, 0x6F, 0x70,
    0x71, 0x72, 0x73, 0x74, 0x75, 0x76, 0x77, 0x78, 0x79, 0x7A, 0x7B, 0x7C, 0x7D, 0x7E, 0x7F, 0x80,
];

/// Of these, 21 from the lowest to the highest, 12 or 13 apart.
const SPREAD: [u8; 21] = [
    0x81, 0x8E, 0x9B, 0xA7, 0xB4, 0xC1, 0xCD, 0xDA, 0xE7, 0xF4, 0x01, 0x0D, 0x1A, 0x27, 0x33, 0x40,
    0x4D, 0x5A, 0x67, 0x73, 0x80,
];

/// Replies of command 62 for the error tables 1 to 8.
const TAKEN: [&str; 8] = [
    ":013E01C0",
    ":013E02BF",
    ":013E03BE",
    ":013E04BD",
    ":013E05BC",
    ":013E06BB",
    ":013E07BA",
    ":013E08B9",
];

pub fn sessions() -> Vec<Session> {
    vec![
        Session::new("temperatures, the papers' rows", papers_rows()),
        Session::new("temperatures, bytes as sent", as_sent()),
        Session::new("temperatures, next to each other", next_to_each_other()),
        Session::new("temperatures, against the ends", against_the_ends()),
        Session::new("temperatures, one alone", one_alone()),
        Session::new("temperatures, few to 21", few_to_21()),
        Session::new("temperatures, one stop in 21", one_stop()),
        Session::new("temperatures, corrections like them", like_corrections()),
        Session::new("temperatures, before 11", before_11()),
        one_call("temperatures, unusable image", 1).spoiled(5, 0),
        one_call("temperatures, short output", 2).output(268),
        Session::new("temperatures, other commands", other_commands()),
        Session::new("temperatures, other numbers of items", other_items()),
        Session::new("temperatures, apart and built", apart_and_built()),
        Session::new("temperatures, address 80h", at_80()).address(0x80),
        Session::new("temperatures, address 81h", at_81()).address(0x81),
        older_tables(),
    ]
}

fn one_call(name: &'static str, number: u8) -> Session {
    let step = serve("80h then 81h", b":013E010280000581FFFFBA\r\n").refused(number);
    Session::new(name, vec![step])
}

/// A table as it is sent and stored: its count, then its rows.
fn table(rows: &[(u8, u16)]) -> Vec<u8> {
    let mut table = vec![rows.len() as u8];
    for &(temperature, correction) in rows {
        table.push(temperature);
        table.extend(correction.to_be_bytes());
    }
    table
}

fn with_corrections(temperatures: &[u8], corrections: impl Iterator<Item = u16>) -> Vec<u8> {
    let temperatures = temperatures.iter().copied();
    table(&temperatures.zip(corrections).collect::<Vec<_>>())
}

/// A table whose corrections fall, so that whoever judges them as well
/// refuses it.
fn falling(temperatures: &[u8]) -> Vec<u8> {
    with_corrections(temperatures, (0..=0xFFFF).rev().step_by(0x0101))
}

/// A table whose corrections rise, so that whoever judges whole rows takes it
/// where temperatures are alike.
fn climbing(temperatures: &[u8]) -> Vec<u8> {
    with_corrections(temperatures, (0..=0xFFFF).step_by(0x0101))
}

fn write(rule: &'static str, number: u8, table: &[u8]) -> Step {
    serve(rule, &ask(1, 62, &[&[number], table].concat()))
}

fn taken(rule: &'static str, number: u8, table: &[u8]) -> Step {
    let index = usize::from(number - 1);
    let mut stored = table.to_vec();
    stored.resize(64, 0);
    write(rule, number, table)
        .replies(TAKEN[index])
        .stores(FIRST_ERRORS + 64 * index, &stored)
        .signs(62, number, &stored)
}

fn refused(rule: &'static str, number: u8, table: &[u8]) -> Step {
    write(rule, number, table).refused(11)
}

/// What 63 and 64 answer if nothing but this is stored of a table.
fn shown(rule: &'static str, number: u8, table: &[u8]) -> [Step; 2] {
    let [high, low] = true_word(table);
    [
        serve(rule, &ask(1, 63, &[number])).writes(&ask(1, 63, &[&[number], table].concat())),
        serve(rule, &ask(1, 64, &[number])).writes(&ask(1, 64, &[number, high, low])),
    ]
}

/// The rows of wish 5 and of document 01, and others with 80h, each written
/// over the one before.
fn papers_rows() -> Vec<Step> {
    let line = |rule, text: &str| serve(rule, format!("{text}\r\n").as_bytes());
    let refused = |rule, text| line(rule, text).refused(11);
    let taken = |rule, text, stored: &[u8]| {
        let step = line(rule, text).replies(":013E01C0");
        step.stores(FIRST_ERRORS, stored).signs(62, 1, stored)
    };
    let two = |first, second| [2, first, 0x00, 0x05, second, 0xFF, 0xFF];
    vec![
        taken("7F then 80", ":013E01027F000580FFFFBC", &two(0x7F, 0x80)),
        refused("80 then 81", ":013E010280000581FFFFBA"),
        taken("FF then 00", ":013E0102FF000500FFFFBC", &two(0xFF, 0x00)),
        refused("00 then FF", ":013E0102000005FFFFFFBC"),
        refused("14 then 14", ":013E010214000514FFFF93"),
        taken("FF then 80", ":013E0102FF000580FFFF3C", &two(0xFF, 0x80)),
        refused("80 then FF", ":013E0102800005FFFFFF3C"),
        taken("00 then 80", ":013E010200000580FFFF3B", &two(0x00, 0x80)),
        refused("80 then 00", ":013E010280000500FFFF3B"),
        refused("80 then 7F", ":013E01028000057FFFFFBC"),
        refused("80 then 80", ":013E010280000580FFFFBB"),
        taken("80 alone", ":013E01018000053A", &[1, 0x80, 0, 5, 0, 0, 0]),
        taken(
            "-127, -1, 0, 1, 127 and 128",
            ":013E0106810000FF00010000020100037F00048000052B",
            &[
                6, 0x81, 0, 0, 0xFF, 0, 1, 0, 0, 2, 1, 0, 3, 0x7F, 0, 4, 0x80, 0, 5,
            ],
        ),
    ]
}

/// What is stored is what was sent, the signature is its plain sum, and a
/// refused table leaves both.
fn as_sent() -> Vec<Step> {
    let read = |reply: &str| serve("63 as sent", b":013F01BF\r\n").replies(reply);
    let sign = |reply: &str| serve("64 plain sum", b":014001BE\r\n").replies(reply);
    vec![
        serve("7F then 80", b":013E01027F000580FFFFBC\r\n")
            .replies(":013E01C0")
            .stores(FIRST_ERRORS, &[2, 0x7F, 0x00, 0x05, 0x80, 0xFF, 0xFF])
            .stores(23_801, &[0x03, 0x04]),
        read(":013F01027F000580FFFFBB"),
        sign(":0140010304B7"),
        serve("80 then 81", b":013E010280000581FFFFBA\r\n").refused(11),
        read(":013F01027F000580FFFFBB"),
        sign(":0140010304B7"),
        serve("81 then 80", b":013E010281ABCD801234FF\r\n")
            .replies(":013E01C0")
            .stores(FIRST_ERRORS, &[2, 0x81, 0xAB, 0xCD, 0x80, 0x12, 0x34])
            .stores(23_801, &[0x02, 0xC1]),
        read(":013F010281ABCD801234FE"),
        sign(":01400102C1FB"),
        serve("80 then 7F", b":013E01028000057FFFFFBC\r\n").refused(11),
        read(":013F010281ABCD801234FE"),
        sign(":01400102C1FB"),
        serve("80 alone", b":013E01018000053A\r\n")
            .replies(":013E01C0")
            .stores(FIRST_ERRORS, &[1, 0x80, 0x00, 0x05, 0x00, 0x00, 0x00])
            .stores(23_801, &[0x00, 0x86]),
        read(":013F010180000539"),
        sign(":014001008638"),
        serve("80 then 80", b":013E010280000580FFFFBB\r\n").refused(11),
        read(":013F010180000539"),
        sign(":014001008638"),
    ]
}

/// Numbers of error tables, over and over.
fn numbers() -> impl Iterator<Item = u8> {
    (1..=8).cycle()
}

/// By these alone no order of the 256 bytes but the right one is left.
fn next_to_each_other() -> Vec<Step> {
    let mut steps = Vec::new();
    for (pair, number) in RISING.windows(2).zip(numbers()) {
        steps.push(taken("one step up", number, &falling(pair)));
        let down = [pair[1], pair[0]];
        steps.push(refused("one step down", number, &climbing(&down)));
    }
    for (byte, number) in RISING.into_iter().zip(numbers()) {
        steps.push(refused("no step", number, &climbing(&[byte, byte])));
    }
    steps
}

/// Each distance from 1 to 255, from either end.
fn against_the_ends() -> Vec<Step> {
    let mut steps = Vec::new();
    for (&byte, number) in RISING[..255].iter().zip(numbers()) {
        steps.push(taken("up to 80h", number, &falling(&[byte, 0x80])));
        steps.push(refused("80h first", number, &climbing(&[0x80, byte])));
    }
    for (&byte, number) in RISING[1..].iter().zip(numbers()) {
        steps.push(taken("81h first", number, &falling(&[0x81, byte])));
        steps.push(refused("down to 81h", number, &climbing(&[byte, 0x81])));
    }
    steps
}

/// One row cannot stop rising, nor is it held against another table or
/// against the one that stood there: 80h comes before all others here.
fn one_alone() -> Vec<Step> {
    let downward = RISING.into_iter().rev().zip(numbers());
    downward
        .map(|(byte, number)| taken("one row", number, &falling(&[byte])))
        .collect()
}

fn few_to_21() -> Vec<Step> {
    let mut steps = Vec::new();
    for (count, number) in (1..=21).zip(numbers()) {
        let highest = falling(&RISING[256 - count..]);
        steps.push(taken("up to 80h, step by step", number, &highest));
        // In document 01's order, which for one row is the same.
        if count > 1 {
            let older = [&[0x80], &RISING[..count - 1]].concat();
            steps.push(refused("80h first", number, &climbing(&older)));
        }
        steps.extend(shown("up to 80h, step by step", number, &highest));
        let lowest = falling(&RISING[..count]);
        steps.push(taken("81h first, step by step", number, &lowest));
    }
    for (first, number) in (0..=220).step_by(20).chain([235]).zip(numbers()) {
        let full = falling(&RISING[first..first + 21]);
        steps.push(taken("21 rows, step by step", number, &full));
    }
    let whole = falling(&SPREAD);
    steps.push(taken("21 rows, 81h first, 80h last", 8, &whole));
    steps.extend(shown("21 rows, 81h first, 80h last", 8, &whole));
    steps
}

/// Tables of 21 rows in which all rise but two neighbours, at each of the 20
/// places, and between them ones in which all rise.
fn one_stop() -> Vec<Step> {
    let mut steps = Vec::new();
    for (row, number) in (0..20).zip(numbers()) {
        // FFh stands in this row and 00h in the next.
        let over_zero = falling(&RISING[126 - row..147 - row]);
        steps.push(taken("all rise", number, &over_zero));
        for (rule, temperatures) in stopped_behind(row) {
            steps.push(refused(rule, number, &climbing(&temperatures)));
        }
        steps.extend(shown("left by those", number, &over_zero));
    }
    steps
}

/// All rise but this row and the next.
fn stopped_behind(row: usize) -> [(&'static str, [u8; 21]); 6] {
    let with = |changes: &[(usize, u8)]| {
        let mut temperatures = SPREAD;
        for &(row, byte) in changes {
            temperatures[row] = byte;
        }
        temperatures
    };
    let mut swapped = SPREAD;
    swapped.swap(row, row + 1);
    [
        ("as the row before", with(&[(row + 1, SPREAD[row])])),
        ("as the row behind", with(&[(row, SPREAD[row + 1])])),
        ("two rows swapped", swapped),
        ("80h too early", with(&[(20, 0x7F), (row, 0x80)])),
        ("81h too late", with(&[(0, 0x82), (row + 1, 0x81)])),
        ("80h then 81h", with(&[(row, 0x80), (row + 1, 0x81)])),
    ]
}

fn like_corrections() -> Vec<Step> {
    let up = |[first, second]: [u16; 2]| table(&[(0x7F, first), (0x80, second)]);
    let down = |[first, second]: [u16; 2]| table(&[(0x80, first), (0x81, second)]);
    let mut steps = Vec::new();
    for corrections in [
        [0x0000, 0x0000],
        [0x7F7F, 0x8080],
        [0x8080, 0x8181],
        [0x8181, 0x8080],
        [0x8080, 0x7F7F],
        [0x8080, 0x8080],
        [0xFFFF, 0x0000],
        [0x0000, 0xFFFF],
        [0x7F80, 0x807F],
        [0x8081, 0x8180],
    ] {
        steps.push(taken("corrections are not judged", 4, &up(corrections)));
        steps.push(refused("corrections are not judged", 4, &down(corrections)));
        steps.extend(shown("corrections as sent", 4, &up(corrections)));
    }
    steps
}

/// A table that does not rise and one that does, each with other faults: those
/// have their numbers as before.
fn before_11() -> Vec<Step> {
    let (down, up) = (climbing(&[0x80, 0x81]), falling(&[0x7F, 0x80]));
    let mut steps = other_faults(&down[1..]);
    steps.push(refused("11 alone", 1, &down));
    steps.extend(other_faults(&up[1..]));
    steps.push(taken("no fault", 1, &up));
    steps.extend(other_faults(&down[1..]));
    steps.extend(shown("left by all of those", 1, &up));
    steps
}

/// Two rows, of error table 1 unless another number is the fault.
fn other_faults(rows: &[u8]) -> Vec<Step> {
    let with = |number, count, rows: &[u8]| [&[number, count], rows].concat();
    let mut steps = Vec::new();
    for count in [0, 1, 3, 21, 22, 0x80, 0x81, 0xFF] {
        let frame = ask(1, 62, &with(1, count, rows));
        steps.push(serve("10, count", &frame).refused(10));
    }
    for number in [0, 9, 0x80, 0x81, 0xFF] {
        let frame = ask(1, 62, &with(number, 2, rows));
        steps.push(serve("10, number", &frame).refused(10));
    }
    for data in [
        with(1, 2, &rows[..5]),
        with(1, 2, &[rows, &[0x82]].concat()),
        with(1, 22, &rows.repeat(11)),
        with(9, 3, &rows[..5]),
    ] {
        steps.push(serve("9", &ask(1, 62, &data)).refused(9));
    }
    let data = with(1, 2, rows);
    for address in [0, 2, 0x80, 0x81] {
        steps.push(serve("7", &ask(address, 62, &data)).refused(7));
    }
    steps.push(serve("8", &ask(1, 65, &data)).refused(8));
    steps.extend(faults_of_the_frame(&ask(1, 62, &data)));
    steps
}

fn faults_of_the_frame(good: &[u8]) -> [Step; 4] {
    let with = |place: usize, character| {
        let mut frame = good.to_vec();
        frame[place] = character;
        frame
    };
    let checksum = good.len() - 3; // its low half
    let other = if good[checksum] == b'0' { b'1' } else { b'0' };
    [
        serve("6", &with(checksum, other)).refused(6),
        // The high half of the first temperature.
        serve("5", &with(9, b'g')).refused(5),
        serve("4", &with(0, b';')).refused(4),
        serve("3", &good[1..]).refused(3),
    ]
}

/// Bytes that are no temperatures: values in no order, and limits that 7Fh,
/// 80h and 81h still cross.
fn other_commands() -> Vec<Step> {
    let mut steps = vec![
        serve("a mask", b":0133804C\r\n")
            .replies(":0133804C")
            .stores(6, &[0x80]),
        serve("a mask", b":0133814B\r\n")
            .replies(":0133814B")
            .stores(6, &[0x81]),
        serve("a mask", b":0132CD\r\n").replies(":0132814C"),
    ];
    for byte in [0x7F, 0x80, 0x81] {
        steps.push(serve("a mode", &ask(1, 76, &[byte])).refused(11));
        for place in 0..9 {
            let mut clock = [0, 0, 0, 1, 1, 1, 0, 0, 0];
            clock[place] = byte;
            steps.push(serve("a clock", &ask(1, 77, &clock)).refused(11));
        }
        for place in [4, 14] {
            let mut constants = zero_constants(0);
            constants[4] = 1; // body byte 7, and 17 is the first of the reserve
            constants[place] = byte;
            steps.push(serve("constants", &ask(1, 53, &constants)).refused(11));
        }
    }
    steps.extend(parts_and_constants());
    steps
}

/// 80h stands before 81h and the other way round.
fn parts_and_constants() -> Vec<Step> {
    let rows = [0x80, 0x81].repeat(64);
    let sent = [&[1, 1], &rows[..]].concat();
    let mut constants = zero_constants(0);
    constants[1..8].copy_from_slice(&[0x80, 0x81, 0x80, 1, 0x81, 0x80, 0x80]);
    vec![
        serve("a part", &ask(1, 59, &sent))
            .replies(":013B0101C2")
            .stores(FIRST_TABLE, &rows)
            .stores(17, &[0x00, 0x01])
            .stores(23_753, &[0x40, 0x40]),
        serve("a part", &ask(1, 60, &[1, 1])).writes(&ask(1, 60, &sent)),
        // 64 times 101h.
        serve("a part", b":013D01C1\r\n").replies(":013D01404041"),
        constants_taken("constants", 49, &constants),
        serve("constants", &ask(1, 54, &[0])).writes(&ask(1, 54, &constants)),
        // Four times 80h, twice 81h, and 1.
        serve("constants", b":013700C8\r\n").replies(":0137000303C2"),
    ]
}

fn other_items() -> Vec<Step> {
    let mut steps = Vec::new();
    for item in [0x7F, 0x80, 0x81, 0xFF] {
        for command in [54, 55, 61, 63, 64] {
            let frame = ask(1, command, &[item]);
            steps.push(serve("no such item", &frame).refused(10));
        }
        for data in [[item, 1], [1, item]] {
            let frame = ask(1, 60, &data);
            steps.push(serve("no such part", &frame).refused(10));
        }
    }
    steps
}

/// What serving refuses 11 is taken apart and built as ever.
fn apart_and_built() -> Vec<Step> {
    let (down, up) = (":013E010280000581FFFFBA", ":013E01027F000580FFFFBC");
    let contents = |first, second| {
        let start = [0x01, 0x3E, 0x01, 0x02];
        [&start[..], &[first, 0x00, 0x05, second, 0xFF, 0xFF]].concat()
    };
    let mut steps = Vec::new();
    for (rule, text, contents) in [
        ("80 then 81", down, contents(0x80, 0x81)),
        ("7F then 80", up, contents(0x7F, 0x80)),
    ] {
        let frame = format!("{text}\r\n");
        steps.push(take_apart(rule, frame.as_bytes()).writes(&contents));
        steps.push(Step::new(rule, 'B', &contents).replies(text));
    }
    steps
}

fn at_80() -> Vec<Step> {
    vec![
        serve("7F then 80", b":803E01027F000580FFFF3D\r\n")
            .replies(":803E0141")
            .stores(FIRST_ERRORS, &[2, 0x7F, 0x00, 0x05, 0x80, 0xFF, 0xFF])
            .stores(23_801, &[0x03, 0x04]),
        serve("80 then 81", b":803E010280000581FFFF3B\r\n").refused(11),
        serve("63 as sent", b":803F0140\r\n").replies(":803F01027F000580FFFF3C"),
        serve("64 plain sum", b":8040013F\r\n").replies(":804001030438"),
        serve("another address", b":813E01027F000580FFFF3C\r\n").refused(7),
    ]
}

fn at_81() -> Vec<Step> {
    vec![
        serve("7F then 80", b":813E01027F000580FFFF3C\r\n")
            .replies(":813E0140")
            .stores(FIRST_ERRORS, &[2, 0x7F, 0x00, 0x05, 0x80, 0xFF, 0xFF])
            .stores(23_801, &[0x03, 0x04]),
        serve("80 then 81", b":813E010280000581FFFF3A\r\n").refused(11),
        serve("63 as sent", b":813F013F\r\n").replies(":813F01027F000580FFFF3B"),
        serve("64 plain sum", b":8140013E\r\n").replies(":814001030437"),
        serve("another address", b":803E01027F000580FFFF3D\r\n").refused(7),
    ]
}

/// Error tables that no command 62 leaves any more, or never did, each with its
/// true word. They are read as they stand; the rule is for what is written.
fn older_tables() -> Session {
    let older = [
        table(&[(0x80, 1), (0x81, 2), (0xFF, 3), (0x00, 4), (0x7F, 5)]),
        table(&[(0x80, 1), (0x81, 2)]),
        climbing(&[&[0x80], &RISING[..20]].concat()),
        table(&[(0x80, 1), (0x7F, 2), (0x80, 3)]),
        table(&[(0x14, 1), (0x14, 2)]),
        table(&[(0x00, 1), (0xFF, 2)]),
    ];
    let mut steps = Vec::new();
    for (number, table) in (1..).zip(&older) {
        steps.extend(shown("read as stored", number, table));
        steps.push(refused("not written again", number, table));
        steps.extend(shown("left as stored", number, table));
    }
    steps.push(serve("50 is served", b":0132CD\r\n").replies(":013200CD"));
    steps.extend(single_row_and_old_rows());
    steps.extend(turned_round(&older[0]));
    let seventh = FIRST_ERRORS + 64 * 6;
    let eighth = FIRST_ERRORS + 64 * 7;
    let mut session = Session::new("temperatures, older tables", steps)
        .holding(seventh, &[1, 0x80, 0x00, 0x01])
        .holding(23_813, &[0x00, 0x82])
        .holding(eighth, &[1, 0x80, 0x00, 0x01, 0x81, 0x00, 0x02])
        .holding(23_815, &[0x01, 0x05]);
    for (number, table) in (1..).zip(&older) {
        session = session
            .holding(FIRST_ERRORS + 64 * usize::from(number - 1), table)
            .holding(word_of(62, number), &true_word(table));
    }
    session
}

/// Tables 7 and 8 have one row each. A second, behind that of table 8, counts
/// for the signature alone, and goes when the table is written.
fn single_row_and_old_rows() -> Vec<Step> {
    let single = table(&[(0x80, 1)]);
    let mut steps = Vec::new();
    steps.extend(shown("one row", 7, &single));
    steps.push(taken("one row", 7, &single));
    steps.push(serve("a row behind", &ask(1, 63, &[8])).replies(":013F080180000136"));
    steps.push(serve("a row behind", &ask(1, 64, &[8])).replies(":0140080105B1"));
    steps.push(taken("a row behind", 8, &single));
    steps.extend(shown("a row behind", 8, &single));
    steps
}

/// The rows of table 1 as wish 5 orders them.
fn turned_round(older: &[u8]) -> Vec<Step> {
    let now = table(&[(0x81, 2), (0xFF, 3), (0x00, 4), (0x7F, 5), (0x80, 1)]);
    let mut steps = vec![
        taken("another table written", 2, &falling(&[0x7F, 0x80])),
        serve("left as stored", &ask(1, 63, &[1])).writes(&ask(1, 63, &[&[1], older].concat())),
        taken("80h last", 1, &now),
    ];
    steps.extend(shown("80h last", 1, &now));
    steps.push(refused("80h first again", 1, older));
    steps.extend(shown("left by that", 1, &now));
    steps
}
