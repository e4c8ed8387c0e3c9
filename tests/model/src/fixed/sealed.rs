//! Fixed calls of document 02, wish 11: a key switch, given with each call
//! and stored nowhere, seals the block. Sealed, 50, 54, 55, 60, 61, 63, 64 and
//! 78 are served as before, with their own 9 and 10; 51, 53, 59, 62, 76 and 77
//! are refused 16, after 8 and before 9, whatever their length and values; all
//! other commands stay 8.

use super::{
    checksum, frame_faults, not_served, one_wrong_end, serve, serve_sealed, small_letters,
    zero_constants, Session, Step, FIRST_ERRORS, FIRST_TABLE,
};
use crate::streams::{ask, BESIDE_DIGITS};

const MASK: usize = 6;
const MODE: usize = 7;
const CLOCK: usize = 8;
const LAST_CONSTANTS: usize = 49 + 7 * 83;
/// Table 12, the second of the additional ones, and the word of its parts.
const TABLE_12: usize = FIRST_TABLE + 9 * 1408;
const WORD_12: usize = 35;
/// The signatures of the items that are written here.
const SIGNATURE_12: usize = 23_771;
const LAST_CONSTANTS_SIGNATURE: usize = 23_799;
const FIRST_ERRORS_SIGNATURE: usize = 23_801;
const LAST_ERRORS_SIGNATURE: usize = 23_815;

pub fn sessions() -> Vec<Session> {
    vec![
        Session::new("sealed, the paper's rows", papers_rows()),
        Session::new("sealed, every command", every_command()),
        Session::new("sealed, commands not served", alike(not_served())),
        Session::new("sealed, back and forth", back_and_forth()),
        Session::new("sealed, writes and reads", writes_and_reads(as_it_is)),
        Session::new("sealed, small letters", writes_and_reads(small)),
        Session::new("sealed, 16 before 9", before_9()),
        Session::new("sealed, 16 before 10 and 11", before_10_and_11()),
        Session::new("sealed, 9 and 10 as ever", nine_and_ten()),
        Session::new("sealed, 3 to 8 before 16", before_16()),
        Session::new("sealed, faults of the frame", faults_of_the_frame()),
        Session::new("sealed, checksums", checksums()),
        Session::new("sealed, address 0 in the image", all_refused(1)).spoiled(5, 0),
        Session::new("sealed, row count 22, short output", all_refused(1))
            .spoiled(FIRST_ERRORS + 7 * 64, 22)
            .output(268),
        Session::new("sealed, short image", all_refused(1)).image_length(23_816),
        Session::new("sealed, short output", all_refused(2)).output(268),
        Session::new("sealed, no output", all_refused(2)).output(0),
        stored_by_writes(),
        stored_by_none(),
        Session::new("sealed, address CEh", at_ce()).address(0xCE),
    ]
}

/// Frames are given without their last two bytes.
fn sealed(rule: &'static str, text: &str) -> Step {
    serve_sealed(rule, format!("{text}\r\n").as_bytes())
}

fn unsealed(rule: &'static str, text: &str) -> Step {
    serve(rule, format!("{text}\r\n").as_bytes())
}

/// Steps written for an unsealed block, where the switch makes no difference.
fn alike(mut steps: Vec<Step>) -> Vec<Step> {
    for step in &mut steps {
        step.letter = 'K';
    }
    steps
}

/// A frame that is accepted unsealed, its reply then, and what it stores.
pub struct Write {
    pub text: String,
    pub reply: &'static str,
    pub stored: Vec<(usize, Vec<u8>)>,
}

impl Write {
    fn new(text: &str, reply: &'static str, offset: usize, bytes: &[u8]) -> Self {
        Write {
            text: text.to_string(),
            reply,
            stored: vec![(offset, bytes.to_vec())],
        }
    }

    fn stores(mut self, offset: usize, bytes: &[u8]) -> Self {
        self.stored.push((offset, bytes.to_vec()));
        self
    }
}

/// One for each of the six commands.
pub fn writes() -> [Write; 6] {
    let constants = [&[0xAB, 0xCD, 0xEF, 0x0D], &[0; 78][..], &[0xAF]].concat();
    let constants_text = format!(":013507ABCDEF0D{}AFA0", "00".repeat(78));
    let part_text = format!(":013B0C0B{}2D", "AB".repeat(128));
    let part_offset = TABLE_12 + 10 * 128;
    [
        Write::new(":01330FBD", ":01330FBD", MASK, &[0x0F]),
        Write::new(&constants_text, ":0135CA", LAST_CONSTANTS, &constants)
            .stores(LAST_CONSTANTS_SIGNATURE, &[0x03, 0x23]),
        Write::new(&part_text, ":013B0C0BAD", part_offset, &[0xAB; 128])
            .stores(WORD_12, &[0x04, 0x00])
            .stores(SIGNATURE_12, &[0x55, 0x80]),
        Write::new(
            ":013E0101140005A6",
            ":013E01C0",
            FIRST_ERRORS,
            &[0x01, 0x14, 0x00, 0x05],
        )
        .stores(FIRST_ERRORS_SIGNATURE, &[0x00, 0x1A]),
        Write::new(":014CFFB4", ":014CFFB4", MODE, &[0xFF]),
        Write::new(
            ":014D3B3B17071F0C63000090",
            ":014DB2",
            CLOCK,
            &[59, 59, 23, 7, 31, 12, 99, 0, 0],
        ),
    ]
}

/// Frames of the six commands for the same items, with other values.
pub fn other_writes() -> [String; 6] {
    [
        ":0133F0DC".to_string(),
        format!(":01350700000001{}C2", "00".repeat(79)),
        format!(":013B0C0B{}2D", "CD".repeat(128)),
        ":013E0102FF0001000002BC".to_string(),
        ":014C00B3".to_string(),
        ":014D000000010101000000AF".to_string(),
    ]
}

/// The frames of `writes` at address 2.
fn elsewhere() -> [String; 6] {
    [
        ":02330FBC".to_string(),
        format!(":023507ABCDEF0D{}AF9F", "00".repeat(78)),
        format!(":023B0C0B{}2C", "AB".repeat(128)),
        ":023E0101140005A5".to_string(),
        ":024CFFB3".to_string(),
        ":024D3B3B17071F0C6300008F".to_string(),
    ]
}

/// A frame of each of the eight commands, its reply on a fresh image, and its
/// reply once all of `writes` are stored.
pub fn reads() -> [(&'static str, String, String); 8] {
    let row = |text, fresh: &str, stored: &str| (text, fresh.to_string(), stored.to_string());
    [
        row(":0132CD", ":013200CD", ":01320FBE"),
        (
            ":013607C2",
            format!(":013607{}C2", "00".repeat(83)),
            format!(":013607ABCDEF0D{}AF9F", "00".repeat(78)),
        ),
        row(":013707C1", ":0137070000C1", ":01370703239B"),
        (
            ":013C0C0BAC",
            format!(":013C0C0B{}AC", "00".repeat(128)),
            format!(":013C0C0B{}2C", "AB".repeat(128)),
        ),
        row(":013D0CB6", ":013D0C0000B6", ":013D0C5580E1"),
        row(":013F01BF", ":013F0100BF", ":013F0101140005A5"),
        row(":014001BE", ":0140010000BE", ":014001001AA4"),
        row(
            ":014EB1",
            ":014E000000000000000000B1",
            ":014E3B3B17071F0C6300008F",
        ),
    ]
}

fn papers_rows() -> Vec<Step> {
    vec![
        sealed("P1", ":0132CD").replies(":013200CD"),
        sealed("P2", ":01330FBD").refused(16),
        sealed("P3", ":0132CE").refused(6),
        sealed("P4", ":0132cD").replies(":013200CD"),
        sealed("P5", ":0232CC").refused(7),
        sealed("P6", ":0153AC").refused(8),
        sealed("P7", ":013608C1").refused(10),
        sealed("P8", ":013C0901B9").refused(10),
        sealed("P9", ":013D01C1").replies(":013D010000C1"),
        sealed("P10", ":013E0101140005A6").refused(16),
        sealed("P11, nothing stored", ":013F01BF").replies(":013F0100BF"),
        sealed("P12, nothing stored", ":014001BE").replies(":0140010000BE"),
        sealed("mode FFh", ":014CFFB4").refused(16),
        sealed("mode 1", ":014C01B2").refused(16),
        sealed("channel 7", ":013607C2").replies(&format!(":013607{}C2", "00".repeat(83))),
        sealed("part 12", ":013C0B0CAC").refused(10),
        sealed("address CEh", ":CE3200").refused(7),
    ]
}

/// All 256, those of the fourteen with data that unsealed is accepted.
fn every_command() -> Vec<Step> {
    let (reads, writes) = (reads(), writes());
    let step = |command: u8| {
        let start = format!(":01{command:02X}");
        let read = reads.iter().find(|(text, _, _)| text.starts_with(&start));
        let write = writes.iter().find(|write| write.text.starts_with(&start));
        match (read, write) {
            (Some((text, reply, _)), _) => sealed("one of the eight", text).replies(reply),
            (_, Some(write)) => sealed("one of the six", &write.text).refused(16),
            _ => serve_sealed("all others", &ask(1, command, &[])).refused(8),
        }
    };
    (0..=255).map(step).collect()
}

/// The switch of one call is nothing to the next one.
fn back_and_forth() -> Vec<Step> {
    let taken =
        |rule, text, offset, byte| unsealed(rule, text).replies(text).stores(offset, &[byte]);
    vec![
        sealed("51 sealed", ":01330FBD").refused(16),
        sealed("the old mask", ":0132CD").replies(":013200CD"),
        unsealed("the old mask", ":0132CD").replies(":013200CD"),
        taken("51 unsealed", ":01330FBD", MASK, 0x0F),
        sealed("the same sealed", ":01330FBD").refused(16),
        sealed("another sealed", ":0133F0DC").refused(16),
        sealed("the new mask", ":0132CD").replies(":01320FBE"),
        unsealed("the new mask", ":0132CD").replies(":01320FBE"),
        taken("51 right after a sealed 50", ":0133F0DC", MASK, 0xF0),
        sealed("76 sealed", ":014CFFB4").refused(16),
        taken("76 right after a sealed 76", ":014CFFB4", MODE, 0xFF),
        sealed("76 sealed again", ":014C00B3").refused(16),
        sealed("the mask stays", ":0132CD").replies(":0132F0DD"),
        sealed("6 sealed", ":0132CE").refused(6),
        taken("76 right after a sealed 6", ":014C00B3", MODE, 0x00),
        sealed("8 sealed", ":0153AC").refused(8),
        taken("51 right after a sealed 8", ":01330FBD", MASK, 0x0F),
        sealed("10 sealed", ":013608C1").refused(10),
        taken("76 right after a sealed 10", ":014CFFB4", MODE, 0xFF),
        unsealed("11 unsealed", ":014C01B2").refused(11),
        sealed("16 right after it", ":014C01B2").refused(16),
        unsealed("11 again", ":014C01B2").refused(11),
        sealed("the last mask", ":0132CD").replies(":01320FBE"),
    ]
}

/// How the letters of a frame are spelled.
type Spelled = fn(&str) -> String;

fn as_it_is(text: &str) -> String {
    text.to_string()
}

fn small(text: &str) -> String {
    text.to_ascii_lowercase()
}

/// All that is stored is shown alike with the switch in either position; it
/// stays through sealed writes and is changed by unsealed ones.
fn writes_and_reads(spelled: Spelled) -> Vec<Step> {
    let (writes, reads) = (writes(), reads());
    let mut steps = Vec::new();
    for (text, fresh, _) in &reads {
        steps.push(sealed("nothing stored", &spelled(text)).replies(fresh));
    }
    for write in &writes {
        steps.push(sealed("a good write", &spelled(&write.text)).refused(16));
        for (text, fresh, _) in &reads {
            steps.push(sealed("nothing written", &spelled(text)).replies(fresh));
        }
    }
    for (text, fresh, _) in &reads {
        steps.push(unsealed("nothing written", &spelled(text)).replies(fresh));
    }
    for write in &writes {
        let text = spelled(&write.text);
        steps.push(sealed("right before it is written", &text).refused(16));
        let mut written = unsealed("written", &text).replies(write.reply);
        written.stored = write.stored.clone();
        steps.push(written);
        steps.push(sealed("right after it is written", &text).refused(16));
    }
    for text in other_writes() {
        steps.push(sealed("other values", &spelled(&text)).refused(16));
    }
    for (text, _, stored) in &reads {
        steps.push(sealed("as written", &spelled(text)).replies(stored));
        steps.push(unsealed("as written", &spelled(text)).replies(stored));
    }
    steps
}

/// Body lengths, checksum included, that are not those of the six commands.
const OTHER_LENGTHS: [(u8, &[usize]); 6] = [
    (51, &[3, 5, 6, 133]),
    (53, &[3, 4, 5, 86, 88, 133]),
    (59, &[3, 4, 5, 131, 132]),
    (62, &[3, 4, 5, 6, 7, 9, 10, 67, 69, 70, 71, 131, 133]),
    (76, &[3, 5, 6, 133]),
    (77, &[3, 4, 11, 13, 133]),
];

fn before_9() -> Vec<Step> {
    let mut steps = Vec::new();
    for (command, lengths) in OTHER_LENGTHS {
        for length in lengths {
            let frame = ask(1, command, &vec![1; length - 3]);
            steps.push(serve_sealed("16 before 9", &frame).refused(16));
            steps.push(serve("9 unsealed", &frame).refused(9));
        }
    }
    steps
}

fn before_10_and_11() -> Vec<Step> {
    let mut steps = Vec::new();
    for (command, data) in bad_items() {
        let frame = ask(1, command, &data);
        steps.push(serve_sealed("16 before 10", &frame).refused(16));
        steps.push(serve("10 unsealed", &frame).refused(10));
    }
    for (command, data) in bad_values() {
        let frame = ask(1, command, &data);
        steps.push(serve_sealed("16 before 11", &frame).refused(16));
        steps.push(serve("11 unsealed", &frame).refused(11));
    }
    steps
}

/// A command and data of its length.
type Request = (u8, Vec<u8>);

fn good_constants(channel: u8) -> Vec<u8> {
    let mut data = zero_constants(channel).to_vec();
    data[4] = 1; // body byte 7, the gas composition
    data
}

fn bad_items() -> Vec<Request> {
    let mut requests = Vec::new();
    for channel in [8, 9, 128, 255] {
        requests.push((53, good_constants(channel)));
    }
    for [table, part] in [
        [0, 1],
        [9, 1],
        [10, 1],
        [19, 1],
        [255, 1],
        [1, 0],
        [12, 12],
        [18, 255],
        [9, 0],
    ] {
        requests.push((59, [&[table, part], &[1; 128][..]].concat()));
    }
    for [number, count] in [[0, 1], [9, 1], [255, 1], [1, 0], [1, 2], [8, 255]] {
        requests.push((62, vec![number, count, 0x14, 0x00, 0x05]));
    }
    requests
}

fn bad_values() -> Vec<Request> {
    let mut requests = Vec::new();
    for (body_byte, value) in [(7, 0), (7, 14), (17, 1), (78, 255)] {
        let mut data = good_constants(7);
        data[body_byte - 3] = value;
        requests.push((53, data));
    }
    for [first, second] in [[0x14, 0x14], [0x00, 0xFF], [0x80, 0x81]] {
        requests.push((62, vec![8, 2, first, 0, 5, second, 0, 5]));
    }
    for mode in [0x01, 0x7F, 0x80, 0xFE] {
        requests.push((76, vec![mode]));
    }
    for (place, value) in [
        (0, 60),
        (1, 60),
        (2, 24),
        (3, 0),
        (3, 8),
        (4, 0),
        (4, 32),
        (5, 0),
        (5, 13),
        (6, 100),
        (7, 1),
        (8, 1),
    ] {
        let mut data = vec![0, 0, 0, 1, 1, 1, 0, 0, 0];
        data[place] = value;
        requests.push((77, data));
    }
    requests
}

/// Of the eight commands.
fn nine_and_ten() -> Vec<Step> {
    let mut steps = Vec::new();
    let mut either = |rule, command, data: &[u8], number| {
        let frame = ask(1, command, data);
        steps.push(serve_sealed(rule, &frame).refused(number));
        steps.push(serve(rule, &frame).refused(number));
    };
    let lengths: [(u8, &[usize]); 8] = [
        (50, &[4, 5, 133]),
        (54, &[3, 5, 87, 133]),
        (55, &[3, 5, 6, 133]),
        (60, &[3, 4, 6, 133]),
        (61, &[3, 5, 6, 133]),
        (63, &[3, 5, 8, 133]),
        (64, &[3, 5, 6, 133]),
        (78, &[4, 12, 133]),
    ];
    for (command, lengths) in lengths {
        for length in lengths {
            either("9", command, &vec![1; length - 3], 9);
        }
    }
    let lengths_and_items: [(u8, &[u8]); 4] =
        [(54, &[8, 0]), (60, &[9]), (60, &[9, 12, 1]), (63, &[9, 1])];
    for (command, data) in lengths_and_items {
        either("9 before 10", command, data, 9);
    }
    let items: [(u8, &[u8]); 5] = [
        (54, &[8, 9, 128, 255]),
        (55, &[8, 9, 128, 255]),
        (61, &[0, 9, 10, 19, 128, 255]),
        (63, &[0, 9, 128, 255]),
        (64, &[0, 9, 128, 255]),
    ];
    for (command, items) in items {
        for &item in items {
            either("10", command, &[item], 10);
        }
    }
    for part in [
        [0, 1],
        [9, 1],
        [10, 1],
        [19, 1],
        [1, 0],
        [1, 12],
        [12, 12],
        [9, 12],
    ] {
        either("10", 60, &part, 10);
    }
    steps
}

/// Each of the six, and one that is not served, but for a fault that has a
/// lower number.
fn before_16() -> Vec<Step> {
    let mut texts = writes().map(|write| write.text).to_vec();
    texts.push(":0153AC".to_string());
    let mut steps: Vec<Step> = texts.iter().flat_map(|text| three_to_six(text)).collect();
    steps.push(sealed("3, no body", ":").refused(3));
    steps.push(sealed("3, a body of 2 bytes", ":0133").refused(3));
    steps.push(serve_sealed("3, a body of 134 bytes", &ask(1, 59, &[1; 131])).refused(3));
    for text in elsewhere() {
        steps.push(sealed("7", &text).refused(7));
    }
    for address in [0, 255] {
        for (command, data) in bad_values() {
            steps.push(serve_sealed("7", &ask(address, command, &data)).refused(7));
        }
    }
    steps.push(sealed("6 before 7", ":02330FBD").refused(6));
    steps.push(sealed("7 before 8", ":0253AB").refused(7));
    steps.push(sealed("8 with a mask", ":01340FBC").refused(8));
    steps.push(sealed("16 alone", ":01330FBD").refused(16));
    steps
}

fn three_to_six(text: &str) -> Vec<Step> {
    let good = format!("{text}\r\n").into_bytes();
    let last = good.len() - 1;
    let with = |place: usize, character| {
        let mut frame = good.clone();
        frame[place] = character;
        frame
    };
    let longer = [&good[..3], b"0", &good[3..]].concat();
    let checksum = last - 2; // its low half
    let other = if good[checksum] == b'0' { b'1' } else { b'0' };
    let mut steps = vec![
        serve_sealed("3, first byte left out", &good[1..]).refused(3),
        serve_sealed("3, last byte left out", &good[..last]).refused(3),
        serve_sealed("3, a digit too many", &longer).refused(3),
        serve_sealed("4, first byte", &with(0, b';')).refused(4),
        serve_sealed("4, last byte but one", &with(last - 1, b'A')).refused(4),
        serve_sealed("4, last byte", &with(last, b'A')).refused(4),
        serve_sealed("6", &with(checksum, other)).refused(6),
    ];
    let places = [1, 2, 3, 4, last - 3, checksum];
    for (place, character) in places.into_iter().zip(BESIDE_DIGITS) {
        steps.push(serve_sealed("5", &with(place, character)).refused(5));
    }
    steps
}

/// What serving and taking apart refuse alike, a sealed block refuses too.
fn faults_of_the_frame() -> Vec<Step> {
    let sessions = [
        one_wrong_end(serve_sealed),
        frame_faults(serve_sealed),
        checksum::before(serve_sealed),
        small_letters::bad_frames(serve_sealed),
    ];
    sessions.into_iter().flatten().collect()
}

/// All of these that pass the test and are for this block are writes, of which
/// one has a length that unsealed is refused 9.
fn checksums() -> Vec<Step> {
    let rows = checksum::plain_sums().into_iter();
    let mut steps = Vec::new();
    for (step, _) in rows.chain(checksum::wrong_tests()) {
        let number = match step.number {
            6 | 7 => step.number,
            _ => 16,
        };
        steps.push(serve_sealed(step.rule, &step.input).refused(number));
    }
    steps.push(sealed("sum 256", ":0132CD").replies(":013200CD"));
    steps.push(sealed("sum 257", ":0132CE").refused(6));
    steps
}

/// Whatever the frame, for the number of the image or the output is lower.
fn all_refused(number: u8) -> Vec<Step> {
    let mut steps = Vec::new();
    for write in writes() {
        steps.push(sealed("one of the six", &write.text).refused(number));
        steps.push(sealed("in small letters", &small(&write.text)).refused(number));
    }
    for (text, _, _) in reads() {
        steps.push(sealed("one of the eight", text).refused(number));
    }
    for text in elsewhere() {
        steps.push(sealed("another address", &text).refused(number));
    }
    steps.push(sealed("not served", ":0153AC").refused(number));
    steps.push(sealed("mode 1", ":014C01B2").refused(number));
    steps.push(sealed("a mask too many", ":01330F0FAE").refused(number));
    steps.push(sealed("a wrong checksum", ":01330FBE").refused(number));
    steps.push(sealed("no digit", ":01330FgD").refused(number));
    steps.push(serve_sealed("a wrong end", b":01330FBD\r\r").refused(number));
    steps.push(serve_sealed("nothing", b"").refused(number));
    steps
}

/// An image that another session left, and an output that is longer than any
/// reply.
fn stored_by_writes() -> Session {
    let mut steps = Vec::new();
    for (text, _, stored) in reads() {
        steps.push(sealed("as stored", text).replies(&stored));
        steps.push(unsealed("as stored", text).replies(&stored));
    }
    for text in other_writes() {
        steps.push(sealed("another value", &text).refused(16));
    }
    for (text, _, stored) in reads() {
        steps.push(sealed("left as stored", text).replies(&stored));
    }
    let mut session = Session::new("sealed, stored by writes", steps).output(400);
    for write in writes() {
        for (offset, bytes) in &write.stored {
            session = session.holding(*offset, bytes);
        }
    }
    session
}

/// Bytes that no write could leave there, with their true signatures.
fn stored_by_none() -> Session {
    let rows = [
        (":0132CD", ":0132EEDF".to_string()),
        (":014EB1", format!(":014E{}53", "EE".repeat(9))),
        (":013607C2", format!(":013607{}15", "FF".repeat(83))),
        (":013707C1", ":01370752ADC2".to_string()),
        (":013C0C0BAC", format!(":013C0C0B{}2C", "FF".repeat(128))),
        // 1,408 times 255, remainder by 65,536.
        (":013D0CB6", ":013D0C7A80BC".to_string()),
        (":013F08B8", format!(":013F0815{}E2", "FF".repeat(63))),
        (":014008B7", ":0140083ED6A3".to_string()),
    ];
    let mut steps = Vec::new();
    for (text, reply) in &rows {
        steps.push(sealed("as stored", text).replies(reply));
        steps.push(unsealed("as stored", text).replies(reply));
    }
    for write in writes() {
        steps.push(sealed("a good write", &write.text).refused(16));
    }
    for (text, reply) in &rows {
        steps.push(sealed("left as stored", text).replies(reply));
    }
    Session::new("sealed, stored by none", steps)
        .holding(MASK, &[0xEE; 11]) // mask, mode and clock
        .holding(LAST_CONSTANTS, &[0xFF; 83])
        .holding(LAST_CONSTANTS_SIGNATURE, &[0x52, 0xAD])
        .holding(TABLE_12, &[0xFF; 1408])
        .holding(SIGNATURE_12, &[0x7A, 0x80])
        .holding(FIRST_ERRORS + 7 * 64, &[21])
        .holding(FIRST_ERRORS + 7 * 64 + 1, &[0xFF; 63])
        .holding(LAST_ERRORS_SIGNATURE, &[0x3E, 0xD6])
}

/// There the checksum of a sealed 50 is 0, and sums are above 256.
fn at_ce() -> Vec<Step> {
    vec![
        sealed("50", ":CE3200").replies(":CE320000"),
        sealed("50, small letters", ":ce3200").replies(":CE320000"),
        sealed("50, both cases", ":cE3200").replies(":CE320000"),
        sealed("55", ":CE3707F4").replies(":CE37070000F4"),
        sealed("61", ":CE3D0CE9").replies(":CE3D0C0000E9"),
        sealed("63", ":CE3F01F2").replies(":CE3F0100F2"),
        sealed("64", ":Ce4001f1").replies(":CE40010000F1"),
        sealed("78", ":cE4eE4").replies(":CE4E000000000000000000E4"),
        sealed("51", ":CE330FF0").refused(16),
        sealed("51, both cases", ":cE330fF0").refused(16),
        sealed("62", ":CE3E0101140005D9").refused(16),
        sealed("76", ":CE4CFFE7").refused(16),
        sealed("77", ":CE4D3B3B17071F0C630000C3").refused(16),
        sealed("another address", ":01330FBD").refused(7),
        sealed("another address", ":0132CD").refused(7),
        unsealed("51", ":CE330FF0")
            .replies(":CE330FF0")
            .stores(MASK, &[0x0F]),
        sealed("51 again", ":CE330FF0").refused(16),
        sealed("50 after 51", ":CE3200").replies(":CE320FF1"),
    ]
}
