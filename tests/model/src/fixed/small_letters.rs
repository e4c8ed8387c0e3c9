//! Fixed calls of document 02, wish 2: reading takes a to f as it takes A to
//! F, each digit by itself; writing stays with capitals.

use super::{
    another_length, clock, error_rows, gas_composition, not_served, parts, reserve, serve,
    take_apart, OfFrame, Session, Step, FIRST_ERRORS, FIRST_TABLE,
};

const FIRST_CONSTANTS: usize = 49;
const MASK: usize = 6;
const MODE: usize = 7;

/// A frame to serve, and the contents that taking it apart gives.
type Row = (Step, Vec<u8>);

pub fn sessions() -> Vec<Session> {
    vec![
        Session::new("small letters, served", served(requests())),
        Session::new("small letters, taken apart", taken_apart(requests())),
        Session::new("address CEh, served", served(at_ce())).address(0xCE),
        Session::new("address CEh, taken apart", taken_apart(at_ce())),
        Session::new("limits of the digits, served", served(limits())),
        Session::new("limits of the digits, taken apart", taken_apart(limits())),
        Session::new("one character, served", one_character(serve)),
        Session::new("one character, taken apart", one_character(take_apart)),
        Session::new("small letters refused, served", bad_requests()),
        Session::new("small letters refused, taken apart", bad_frames(take_apart)),
        Session::new("the other rules in small letters", other_rules()),
        Session::new("apart and built again", there_and_back()),
        one_call("small letters, unusable image", serve, 1).spoiled(5, 0),
        one_call("small letters, short output, served", serve, 2).output(268),
        one_call("small letters, short output, apart", take_apart, 2).output(131),
    ]
}

fn one_call(name: &'static str, call: OfFrame, number: u8) -> Session {
    let step = call("P1 in small letters", b":0132cd\r\n").refused(number);
    Session::new(name, vec![step])
}

fn line(rule: &'static str, text: &str) -> Step {
    serve(rule, format!("{text}\r\n").as_bytes())
}

fn served(rows: Vec<Row>) -> Vec<Step> {
    rows.into_iter().map(|(step, _)| step).collect()
}

fn taken_apart(rows: Vec<Row>) -> Vec<Step> {
    rows.into_iter()
        .map(|(step, contents)| take_apart(step.rule, &step.input).writes(&contents))
        .collect()
}

/// Each of the fourteen commands.
fn requests() -> Vec<Row> {
    [mask(), mode_and_clock(), errors(), constants(), table()]
        .into_iter()
        .flatten()
        .collect()
}

fn mask() -> Vec<Row> {
    let read = |rule, text, reply| (line(rule, text).replies(reply), vec![0x01, 0x32]);
    let write = |rule, text, reply, mask| {
        let step = line(rule, text).replies(reply).stores(MASK, &[mask]);
        (step, vec![0x01, 0x33, mask])
    };
    vec![
        read("P4 has P1's reply", ":0132cD", ":013200CD"),
        read("P1, low half small", ":0132Cd", ":013200CD"),
        read("P1, both halves small", ":0132cd", ":013200CD"),
        write("P2 in small letters", ":01330fbd", ":01330FBD", 0x0F),
        read("50 after P2", ":0132cD", ":01320FBE"),
        write("both cases in a value", ":0133aB21", ":0133AB21", 0xAB),
        write("both cases in a value", ":0133CdfF", ":0133CDFF", 0xCD),
        write("both cases in a value", ":0133eFDd", ":0133EFDD", 0xEF),
        read("50 has capitals", ":0132cd", ":0132EFDE"),
    ]
}

fn mode_and_clock() -> Vec<Row> {
    let mode = |rule, text, reply, mode| {
        let step = line(rule, text).replies(reply).stores(MODE, &[mode]);
        (step, vec![0x01, 0x4C, mode])
    };
    let clock = [59, 59, 23, 7, 31, 12, 99, 0, 0];
    let written = line("77, small but for two", ":014d3b3B17071f0C63000090").replies(":014DB2");
    let read = line("78 has capitals", ":014Eb1").replies(":014E3B3B17071F0C6300008F");
    vec![
        mode("both cases in a value", ":014CfFB4", ":014CFFB4", 0xFF),
        mode("small in the command", ":014c00b3", ":014C00B3", 0x00),
        mode("all small", ":014cffb4", ":014CFFB4", 0xFF),
        (
            written.stores(8, &clock),
            [&[0x01, 0x4D], &clock[..]].concat(),
        ),
        (read, vec![0x01, 0x4E]),
    ]
}

fn errors() -> Vec<Row> {
    let rows = [0x02, 0xFF, 0x00, 0x0A, 0x00, 0x0B, 0xCD];
    vec![
        (
            line("P10 in small letters", ":013e0101140005a6")
                .replies(":013E01C0")
                .stores(FIRST_ERRORS, &[0x01, 0x14, 0x00, 0x05])
                .stores(23_801, &[0x00, 0x1A]),
            vec![0x01, 0x3E, 0x01, 0x01, 0x14, 0x00, 0x05],
        ),
        (
            line("P11 in small letters", ":013f01bf").replies(":013F0101140005A5"),
            vec![0x01, 0x3F, 0x01],
        ),
        (
            line("P12 in small letters", ":014001be").replies(":014001001AA4"),
            vec![0x01, 0x40, 0x01],
        ),
        (
            line("62, FF then 00", ":013e0202fF000a000bCddC")
                .replies(":013E02BF")
                .stores(FIRST_ERRORS + 64, &rows)
                .stores(23_803, &[0x01, 0xE3]),
            [&[0x01, 0x3E, 0x02], &rows[..]].concat(),
        ),
        (
            line("63 has capitals", ":013f02Be").replies(":013F0202FF000A000BCDDB"),
            vec![0x01, 0x3F, 0x02],
        ),
    ]
}

fn constants() -> Vec<Row> {
    let zeros = "00".repeat(78);
    let mut stored = [0; 83];
    stored[..4].copy_from_slice(&[0xAB, 0xCD, 0xEF, 0x0D]);
    stored[82] = 0xAF;
    vec![
        (
            line("53, gas 13", &format!(":013507abCDeF0d{zeros}aFa0"))
                .replies(":0135CA")
                .stores(FIRST_CONSTANTS + 7 * 83, &stored)
                .stores(23_799, &[0x03, 0x23]),
            [&[0x01, 0x35, 0x07], &stored[..]].concat(),
        ),
        (
            line("54 has capitals", ":013607c2").replies(&format!(":013607ABCDEF0D{zeros}AF9F")),
            vec![0x01, 0x36, 0x07],
        ),
        (
            line("55 in small letters", ":013707c1").replies(":01370703239B"),
            vec![0x01, 0x37, 0x07],
        ),
    ]
}

/// Table 12 and parts 10 and 11 have letters; both writes are of the full
/// 269 characters.
fn table() -> Vec<Row> {
    let twelfth = FIRST_TABLE + 9 * 1408;
    let part = |letters: &str| letters.repeat(128);
    vec![
        (
            line("59, all small", &format!(":013b0c0b{}2d", part("ab")))
                .replies(":013B0C0BAD")
                .stores(twelfth + 10 * 128, &[0xAB; 128])
                .stores(35, &[0x04, 0x00])
                .stores(23_771, &[0x55, 0x80]),
            [&[0x01, 0x3B, 0x0C, 0x0B], &[0xAB; 128][..]].concat(),
        ),
        (
            line("59, both cases", &format!(":013B0C0a{}aE", part("fE")))
                .replies(":013B0C0AAE")
                .stores(twelfth + 9 * 128, &[0xFE; 128])
                .stores(35, &[0x06, 0x00])
                .stores(23_771, &[0xD4, 0x80]),
            [&[0x01, 0x3B, 0x0C, 0x0A], &[0xFE; 128][..]].concat(),
        ),
        (
            line("60 has capitals", ":013c0c0bac").replies(&format!(":013C0C0B{}2C", part("AB"))),
            vec![0x01, 0x3C, 0x0C, 0x0B],
        ),
        (
            line("60 has capitals", ":013C0c0Aad").replies(&format!(":013C0C0A{}AD", part("FE"))),
            vec![0x01, 0x3C, 0x0C, 0x0A],
        ),
        (
            line("61 in small letters", ":013d0cb6").replies(":013D0CD48062"),
            vec![0x01, 0x3D, 0x0C],
        ),
        (
            line("P9 in small letters", ":013d01c1").replies(":013D010000C1"),
            vec![0x01, 0x3D, 0x01],
        ),
    ]
}

fn at_ce() -> Vec<Row> {
    let read = |text| {
        let step = line("an address with letters", text).replies(":CE320000");
        (step, vec![0xCE, 0x32])
    };
    vec![
        read(":CE3200"),
        read(":ce3200"),
        read(":cE3200"),
        read(":Ce3200"),
        (
            line("51 at that address", ":cE330fF0")
                .replies(":CE330FF0")
                .stores(MASK, &[0x0F]),
            vec![0xCE, 0x33, 0x0F],
        ),
        (
            line("another address", ":cf32ff").refused(7),
            vec![0xCF, 0x32],
        ),
    ]
}

/// A place in the frame, counted from its first byte, where 0, 9, A and F
/// stand in turn with the checksum right; the contents; the number of serving.
const LIMITS: [(usize, &str, [u8; 3], u8); 32] = [
    (1, ":01330FBD", [0x01, 0x33, 0x0F], 0),
    (1, ":91330F2D", [0x91, 0x33, 0x0F], 7),
    (1, ":A1330F1D", [0xA1, 0x33, 0x0F], 7),
    (1, ":F1330FCD", [0xF1, 0x33, 0x0F], 7),
    (2, ":00330FBE", [0x00, 0x33, 0x0F], 7),
    (2, ":09330FB5", [0x09, 0x33, 0x0F], 7),
    (2, ":0A330FB4", [0x0A, 0x33, 0x0F], 7),
    (2, ":0F330FAF", [0x0F, 0x33, 0x0F], 7),
    (3, ":01030FED", [0x01, 0x03, 0x0F], 8),
    (3, ":01930F5D", [0x01, 0x93, 0x0F], 8),
    (3, ":01A30F4D", [0x01, 0xA3, 0x0F], 8),
    (3, ":01F30FFD", [0x01, 0xF3, 0x0F], 8),
    (4, ":01300FC0", [0x01, 0x30, 0x0F], 8),
    (4, ":01390FB7", [0x01, 0x39, 0x0F], 8),
    (4, ":013A0FB6", [0x01, 0x3A, 0x0F], 8),
    (4, ":013F0FB1", [0x01, 0x3F, 0x0F], 10),
    (5, ":01330FBD", [0x01, 0x33, 0x0F], 0),
    (5, ":01339F2D", [0x01, 0x33, 0x9F], 0),
    (5, ":0133AF1D", [0x01, 0x33, 0xAF], 0),
    (5, ":0133FFCD", [0x01, 0x33, 0xFF], 0),
    (6, ":013300CC", [0x01, 0x33, 0x00], 0),
    (6, ":013309C3", [0x01, 0x33, 0x09], 0),
    (6, ":01330AC2", [0x01, 0x33, 0x0A], 0),
    (6, ":01330FBD", [0x01, 0x33, 0x0F], 0),
    (7, ":0133BF0D", [0x01, 0x33, 0xBF], 0),
    (7, ":01332F9D", [0x01, 0x33, 0x2F], 0),
    (7, ":01331FAD", [0x01, 0x33, 0x1F], 0),
    (7, ":0133CFFD", [0x01, 0x33, 0xCF], 0),
    (8, ":01331CB0", [0x01, 0x33, 0x1C], 0),
    (8, ":013313B9", [0x01, 0x33, 0x13], 0),
    (8, ":013312BA", [0x01, 0x33, 0x12], 0),
    (8, ":01330DBF", [0x01, 0x33, 0x0D], 0),
];

/// Each frame as it stands, and where a letter is at its place, with that one
/// small. What is served is command 51, which echoes.
fn limits() -> Vec<Row> {
    let mut rows = Vec::new();
    for (place, capitals, contents, number) in LIMITS {
        let mut small = capitals.to_string();
        small[place..=place].make_ascii_lowercase();
        let mut texts = vec![capitals, small.as_str()];
        texts.dedup();
        for text in texts {
            let step = line("first or last of a range", text);
            let step = match number {
                0 => step.replies(capitals).stores(MASK, &contents[2..]),
                _ => step.refused(number),
            };
            rows.push((step, contents.to_vec()));
        }
    }
    rows
}

fn with(frame: &[u8], place: usize, character: u8) -> Vec<u8> {
    let mut frame = frame.to_vec();
    frame[place] = character;
    frame
}

/// Every place of a body with characters that are digits, and of two with some
/// that are none; these also at the ends and in the middle of the longest body.
fn one_character(call: OfFrame) -> Vec<Step> {
    let mut steps = Vec::new();
    for place in 1..=8 {
        steps.extend(b"09AFaf".map(|digit| another_digit(call, place, digit)));
        steps.extend(beside(call, b":01330FBD\r\n", place));
        steps.extend(beside(call, b":014cffb4\r\n", place));
    }
    let longest = format!(":013b0c0b{}2d\r\n", "ab".repeat(128));
    for place in [1, 2, 133, 134, 265, 266] {
        steps.extend(beside(call, longest.as_bytes(), place));
    }
    steps
}

fn beside(call: OfFrame, good: &[u8], place: usize) -> [Step; 6] {
    [47, 58, 64, 71, 96, 103].map(|character| {
        let frame = with(good, place, character);
        call("beside the three ranges", &frame).refused(5)
    })
}

/// The checksum stays: unless the digit is the one that stood there, the sum
/// is wrong, and the number is not 5.
fn another_digit(call: OfFrame, place: usize, digit: u8) -> Step {
    let good = b":01330FBD\r\n";
    let step = call("first or last of a range", &with(good, place, digit));
    match step.letter {
        _ if digit.to_ascii_uppercase() != good[place] => step.refused(6),
        'T' => step.writes(&[0x01, 0x33, 0x0F]),
        _ => step.replies(":01330FBD").stores(MASK, &[0x0F]),
    }
}

/// What serving and taking apart refuse alike. The desk joins to a missing
/// 0Ah what follows it, so that stands last.
pub(super) fn bad_frames(call: OfFrame) -> Vec<Step> {
    vec![
        call("3 before 5", b":0132g\r\n").refused(3),
        call("3 before 6", b":0132c\r\n").refused(3),
        call("4 before 5", b";01`2cd\r\n").refused(4),
        call("4 before 6", b";0132ce\r\n").refused(4),
        // No digit in place of g would make the checksum cd.
        call("5 before 6", b":0132ge\r\n").refused(5),
        // c is a digit since wish 2, so what is wrong is the sum.
        call("6 and no longer 5", b":0132cE\r\n").refused(6),
        call("6, all small", b":01330fbe\r\n").refused(6),
        call("6, both cases in a value", b":0133aB22\r\n").refused(6),
        call("6, P10 but for its sum", b":013e0101140005a7\r\n").refused(6),
        call("a letter for the first byte", b"a0132CD\r\n").refused(4),
        call("a letter for 0Dh", b":0132CDd\n").refused(4),
        call("a letter for 0Ah", b":0132CD\rd").refused(4),
    ]
}

fn bad_requests() -> Vec<Step> {
    let requests = [
        ("6 before 7", ":0232cd", 6),
        ("P5 in small letters", ":0232cc", 7),
        ("address CEh", ":ce3200", 7),
        ("7 before 8", ":0253ab", 7),
        ("P6 in small letters", ":0153ac", 8),
        ("command FFh", ":01ff00", 8),
        ("60 without a part", ":013c01c2", 9),
        ("76 without a mode", ":014cb3", 9),
        ("P7 in small letters", ":013608c1", 10),
        ("P8 in small letters", ":013c0901b9", 10),
        ("part 12", ":013c0b0cac", 10),
        ("one row and a count of 2", ":013e0102140005a5", 10),
        ("mode 1", ":014c01b2", 11),
        ("mode FEh", ":014cfeb5", 11),
        ("00 then FF", ":013e0102000000ff0000bf", 11),
    ];
    let steps = requests.map(|(rule, text, number)| line(rule, text).refused(number));
    steps.into_iter().chain(bad_frames(serve)).collect()
}

/// No other number changes its condition, so calls written for capitals have
/// the same outcome when all letters of their frames are small.
fn other_rules() -> Vec<Step> {
    let sessions = [
        not_served(), // the first, for it counts on a fresh channel 0
        another_length(),
        clock(),
        gas_composition(),
        reserve(),
        parts(),
        error_rows(),
    ];
    let mut steps: Vec<Step> = sessions.into_iter().flatten().collect();
    for step in &mut steps {
        step.input.make_ascii_lowercase();
    }
    steps
}

fn there_and_back() -> Vec<Step> {
    let contents = [0xAB, 0xCD, 0xEF];
    vec![
        take_apart("all small", b":abcdef99\r\n").writes(&contents),
        take_apart("both cases", b":aBcDeF99\r\n").writes(&contents),
        take_apart("both cases", b":AbCdEf99\r\n").writes(&contents),
        Step::new("building has capitals", 'B', &contents).replies(":ABCDEF99"),
        take_apart("what was built", b":ABCDEF99\r\n").writes(&contents),
    ]
}
