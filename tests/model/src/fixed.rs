//! Fixed calls, each with its outcome written out from the rules: those that
//! streams by chance would show only by luck. The programs are compared on
//! them, the model is held to them, and a run in which one of them did not
//! come out as written has failed.

mod buffers;
mod checksum;
pub mod listener;
mod moves;
mod order;
pub mod panel;
mod quantity;
mod sealed;
mod signatures;
mod small_letters;
mod table_file;
pub mod temperatures;

use std::sync::LazyLock;

use self::buffers::Buffers;
pub use self::buffers::Change;
use crate::block::IMAGE_BYTES;
use crate::items;
use crate::probe::{digest, OUTPUT_ROOM};
use crate::streams::{ask, COMMANDS};

/// What the output holds before each call.
pub const FILL: u8 = 0xA5;

const SERVE_ROOM: usize = 269;
const FIRST_ERRORS: usize = 713;
const FIRST_TABLE: usize = 1225;

/// One call, the rule it shows, and its outcome.
pub struct Step {
    pub rule: &'static str,
    /// The letter of its record in a script of the probe or of the panel's program.
    pub letter: char,
    /// What it is given: a frame, and before it the switch if that is a number,
    /// contents, an address or a table's number, and behind that a level if a
    /// volume is asked for, or a table file; of a move nothing.
    pub input: Vec<u8>,
    /// What was changed behind the block's back right before it.
    pub changed: Vec<Change>,
    number: u8,
    wrote: Vec<u8>,
    stored: Vec<(usize, Vec<u8>)>,
    moved: Option<Moved>,
    /// Of the held-parts question: how many, and the lowest missing one.
    held: [u8; 2],
    /// Of the question for a volume at a level: that volume.
    volume: u16,
}

/// What a move leaves in the second buffer, beside what it keeps.
struct Moved {
    version: u8,
    words: Vec<u8>,
}

impl Step {
    fn new(rule: &'static str, letter: char, input: &[u8]) -> Self {
        Step {
            rule,
            letter,
            input: input.to_vec(),
            changed: Vec::new(),
            number: 0,
            wrote: Vec::new(),
            stored: Vec::new(),
            moved: None,
            held: [0, 0],
            volume: 0,
        }
    }

    /// What was changed behind the block's back right before it, and where.
    fn after_change(mut self, offset: usize, bytes: &[u8]) -> Self {
        self.changed.push(Change::Bytes(offset, bytes.to_vec()));
        self
    }

    /// All that was changed behind the block's back right before it.
    fn after(mut self, changes: &[Change]) -> Self {
        self.changed.extend_from_slice(changes);
        self
    }

    fn refused(mut self, number: u8) -> Self {
        self.number = number;
        self
    }

    /// What it writes at the start of the output.
    fn writes(mut self, bytes: &[u8]) -> Self {
        self.wrote = bytes.to_vec();
        self
    }

    /// What it writes, as a frame without its last two bytes.
    fn replies(self, text: &str) -> Self {
        self.writes(format!("{text}\r\n").as_bytes())
    }

    /// What it leaves in the image, and where.
    fn stores(mut self, offset: usize, bytes: &[u8]) -> Self {
        self.stored.push((offset, bytes.to_vec()));
        self
    }

    /// Leaves the sum of these bytes as the word of the item that a command
    /// names by this number. That is for items which then hold zeros beside
    /// them and whose word was true: then it stays true (document 02, wish 7).
    fn signs(self, command: u8, number: u8, bytes: &[u8]) -> Self {
        self.stores(word_of(command, number), &true_word(bytes))
    }

    /// What it leaves in the second buffer: the image in this version, and these
    /// words behind it.
    fn moves(mut self, version: u8, words: &[u8]) -> Self {
        let words = words.to_vec();
        self.moved = Some(Moved { version, words });
        self
    }

    /// How many parts are held, and the lowest missing one.
    fn holds(mut self, parts: u8, missing: u8) -> Self {
        self.held = [parts, missing];
        self
    }

    /// The volume at the level that it asks for.
    fn answers(mut self, volume: u16) -> Self {
        self.volume = volume;
        self
    }

    /// The line of a question. It shows no buffer, and a digest takes long.
    fn answer_line(&self) -> String {
        let (letter, number, [parts, missing]) = (self.letter, self.number, self.held);
        match letter {
            'A' => format!("A {number} {}", self.volume),
            'C' => format!("C {number}"),
            _ => format!("{letter} {number} {parts} {missing}"),
        }
    }
}

/// The word of an item that holds these bytes and zeros alone, if it is true.
fn true_word(bytes: &[u8]) -> [u8; 2] {
    (items::sum(bytes) as u16).to_be_bytes()
}

/// Where the word of an item lies, by a command and the number it names it by.
fn word_of(command: u8, number: u8) -> usize {
    let item = items::item(command, number);
    item.expect("the command can name it").word
}

/// Steps taken in turn on one image, fresh before the first.
pub struct Session {
    pub name: &'static str,
    pub address: u8,
    pub image_length: usize,
    /// Bytes changed before the first step, and what each is changed to.
    pub changed: Vec<(usize, u8)>,
    pub output: usize,
    pub steps: Vec<Step>,
}

impl Session {
    fn new(name: &'static str, steps: Vec<Step>) -> Self {
        Session {
            name,
            address: 1,
            image_length: IMAGE_BYTES,
            changed: Vec::new(),
            output: SERVE_ROOM,
            steps,
        }
    }

    fn address(mut self, address: u8) -> Self {
        self.address = address;
        self
    }

    fn image_length(mut self, length: usize) -> Self {
        self.image_length = length;
        self
    }

    fn spoiled(self, offset: usize, value: u8) -> Self {
        self.holding(offset, &[value])
    }

    /// What stands in the image before the first step, and where.
    fn holding(mut self, offset: usize, bytes: &[u8]) -> Self {
        self.changed.extend((offset..).zip(bytes.iter().copied()));
        self
    }

    fn output(mut self, length: usize) -> Self {
        self.output = length;
        self
    }

    /// Its frames, if the desk program can run all of its steps.
    pub fn stream(&self) -> Option<Vec<u8>> {
        let runs = self.changed.is_empty()
            && self.address == 1
            && self.image_length == IMAGE_BYTES
            && self.output == SERVE_ROOM
            && self
                .steps
                .iter()
                .all(|step| step.letter == 'S' && step.changed.is_empty());
        runs.then(|| {
            self.steps
                .iter()
                .flat_map(|step| step.input.clone())
                .collect()
        })
    }

    /// The desk's line for each step, from what is written here alone.
    pub fn desk_lines(&self) -> Vec<String> {
        self.steps
            .iter()
            .map(|step| match step.wrote.strip_suffix(b"\r\n") {
                Some(reply) => format!("0 {}", String::from_utf8_lossy(reply)),
                None => step.number.to_string(),
            })
            .collect()
    }

    /// The line of the probe or of the panel's program for each step, from what is
    /// written here alone.
    pub fn probe_lines(&self) -> Vec<String> {
        let mut buffers = Buffers::new(self.address);
        buffers.change(&Change::Length(self.image_length));
        for &(offset, value) in &self.changed {
            buffers.change(&Change::Bytes(offset, vec![value]));
        }
        let mut lines = Vec::new();
        for step in &self.steps {
            buffers.take(step);
            lines.push(match step.letter {
                'H' | 'J' | 'A' | 'C' => step.answer_line(),
                _ => self.line_of(step, &mut buffers),
            });
        }
        lines
    }

    /// The line of a step that shows a buffer.
    fn line_of(&self, step: &Step, buffers: &mut Buffers) -> String {
        let mut output = [FILL; OUTPUT_ROOM];
        output[..step.wrote.len()].copy_from_slice(&step.wrote);
        let (letter, number, length) = (step.letter, step.number, step.wrote.len());
        let output = digest(&output[..self.output]);
        let image = buffers.image();
        match letter {
            'S' | 'K' | 'Z' => format!("{letter} {number} {length} {image} {output}"),
            'F' => format!("F {number} {image}"),
            'U' | 'D' => format!("{letter} {number} {image} {}", buffers.second()),
            _ => format!("{letter} {number} {length} {output}"),
        }
    }
}

/// A call as it comes up in a run: its letter (d, with which no record begins,
/// for a piece given to the desk program), what it is given, and the line it
/// prints, or of a line given to the listener all of them.
pub type Seen = (char, Vec<u8>, String);

/// Every fixed call with the line it must print, and the rule it shows.
pub fn wanted() -> Vec<(Seen, String)> {
    let mut wanted = Vec::new();
    for session in sessions() {
        let mut want = |letter: char, step: &Step, line: String| {
            let rule = format!("{letter} of {}: {}", session.name, step.rule);
            wanted.push(((letter, step.input.clone(), line), rule));
        };
        for (step, line) in session.steps.iter().zip(session.probe_lines()) {
            want(step.letter, step, line);
        }
        if session.stream().is_some() {
            for (step, line) in session.steps.iter().zip(session.desk_lines()) {
                want('d', step, line);
            }
        }
    }
    for hearing in listener::hearings() {
        for (line, printed) in hearing.lines.iter().zip(hearing.probe_lines()) {
            let letter = line.then.letter();
            let rule = format!("{letter} of {}: {}", hearing.name, line.rule);
            wanted.push(((letter, line.bytes.clone(), printed.join("\n")), rule));
        }
    }
    wanted
}

/// Every fixed call of the panel's own with the line it must print, and the rule
/// it shows.
pub fn wanted_of_panel() -> Vec<(Seen, String)> {
    let mut wanted = Vec::new();
    for session in panel::sessions() {
        for (step, line) in session.steps.iter().zip(session.probe_lines()) {
            let rule = format!("{} of {}: {}", step.letter, session.name, step.rule);
            wanted.push(((step.letter, step.input.clone(), line), rule));
        }
    }
    wanted
}

/// The sessions that the desk program can run, with their streams.
pub fn streams() -> Vec<(&'static str, Vec<u8>)> {
    let named = |session: &Session| Some((session.name, session.stream()?));
    sessions().iter().filter_map(named).collect()
}

/// All sessions, which are made once.
pub fn sessions() -> &'static [Session] {
    static SESSIONS: LazyLock<Vec<Session>> = LazyLock::new(all_sessions);
    &SESSIONS
}

fn all_sessions() -> Vec<Session> {
    let mut sessions = vec![
        Session::new("one wrong end, served", one_wrong_end(serve)),
        Session::new("one wrong end, taken apart", one_wrong_end(take_apart)),
        Session::new("two faults at once, served", two_faults()),
        Session::new("two faults at once, taken apart", frame_faults(take_apart)),
        short_output("short output and even length, served", serve, 268),
        short_output("short output and even length, taken apart", take_apart, 131),
        Session::new("unusable image, short output, no such table", unusable())
            .spoiled(5, 0)
            .output(268),
        Session::new("short buffer and address 0", short_buffer()).image_length(23_816),
        Session::new("address 0", vec![fresh("address 0", 0).refused(11)]),
        Session::new("one byte and too short an output", build_faults(1)).output(6),
        Session::new("133 bytes and too short an output", build_faults(133)).output(270),
        Session::new("mode, then mask", mode_then_mask()),
        Session::new("mask, then mode", mask_then_mode()),
        Session::new("clock", clock()),
        Session::new("gas composition", gas_composition()),
        Session::new("reserve", reserve()),
        Session::new("parts", parts()),
        Session::new("error rows", error_rows()),
        Session::new("another body length", another_length()),
        Session::new("commands beside those served", not_served()),
    ];
    sessions.extend(small_letters::sessions());
    sessions.extend(checksum::sessions());
    sessions.extend(temperatures::sessions());
    sessions.extend(sealed::sessions());
    sessions.extend(signatures::sessions());
    sessions.extend(moves::sessions());
    sessions.extend(order::sessions());
    sessions.extend(quantity::sessions());
    sessions.extend(table_file::sessions());
    sessions
}

fn serve(rule: &'static str, frame: &[u8]) -> Step {
    Step::new(rule, 'S', frame)
}

fn serve_sealed(rule: &'static str, frame: &[u8]) -> Step {
    Step::new(rule, 'K', frame)
}

fn take_apart(rule: &'static str, frame: &[u8]) -> Step {
    Step::new(rule, 'T', frame)
}

fn fresh(rule: &'static str, address: u8) -> Step {
    Step::new(rule, 'F', &[address])
}

/// A call that serves a frame, or one that takes it apart.
type OfFrame = fn(&'static str, &[u8]) -> Step;

/// A good frame, and then ones that differ from it in one end alone. The
/// desk joins to a missing 0Ah what follows it, so that stands last.
fn one_wrong_end(call: OfFrame) -> Vec<Step> {
    let good = call("nothing wrong", b":0132CD\r\n");
    vec![
        match good.letter {
            'T' => good.writes(&[0x01, 0x32]),
            _ => good.replies(":013200CD"),
        },
        call("first byte wrong", b";0132CD\r\n").refused(4),
        call("last byte but one wrong", b":0132CDA\n").refused(4),
        call("last byte wrong", b":0132CD\rA").refused(4),
    ]
}

/// What serving and taking apart refuse alike.
fn frame_faults(call: OfFrame) -> Vec<Step> {
    vec![
        call("3 before 4", b";0132C\r\n").refused(3),
        call("4 before 5", b";01g2CD\r\n").refused(4),
        // No digit in place of g would make the checksum CD.
        call("5 before 6", b":0132gE\r\n").refused(5),
    ]
}

/// There is no 8 before 9: a command that is not served has no length.
fn two_faults() -> Vec<Step> {
    let mut steps = frame_faults(serve);
    let mut constants = zero_constants(8);
    constants[4] = 14;
    steps.extend([
        serve("6 before 7", b":0232CD\r\n").refused(6),
        serve("7 before 8", b":0253AB\r\n").refused(7),
        serve("7 before 8", &ask(2, 56, &[])).refused(7),
        serve("9 before 10", &ask(1, 54, &[8, 0])).refused(9),
        serve("9 before 10", &ask(1, 60, &[9])).refused(9),
        serve("9 before 10", &ask(1, 62, &[9, 2, 5, 0])).refused(9),
        serve("10 before 11", &ask(1, 53, &constants)).refused(10),
        serve("10 before 11", &ask(1, 62, &[9, 2, 5, 0, 0, 4, 0, 0])).refused(10),
        serve("10 before 11", &ask(1, 62, &[1, 3, 5, 0, 0, 4, 0, 0])).refused(10),
    ]);
    steps
}

fn short_output(name: &'static str, call: OfFrame, room: usize) -> Session {
    let steps = vec![call("2 before 3", b":0132C\r\n").refused(2)];
    Session::new(name, steps).output(room)
}

fn unusable() -> Vec<Step> {
    vec![
        serve("1 before 2", b":0132CD\r\n").refused(1),
        Step::new("1 before 10", 'H', &9u32.to_be_bytes()).refused(1),
    ]
}

fn short_buffer() -> Vec<Step> {
    vec![fresh("1 before 11", 0).refused(1)]
}

fn build_faults(count: usize) -> Vec<Step> {
    vec![Step::new("3 before 2", 'B', &vec![1; count]).refused(3)]
}

/// The mode lies beside the mask, and one must not be taken for the other.
fn mode_then_mask() -> Vec<Step> {
    vec![
        serve("76 writes the mode alone", b":014CFFB4\r\n")
            .replies(":014CFFB4")
            .stores(7, &[0xFF]),
        serve("50 after 76 alone", b":0132CD\r\n").replies(":013200CD"),
        serve("51 writes the mask alone", b":01330FBD\r\n")
            .replies(":01330FBD")
            .stores(6, &[0x0F]),
        serve("50 after 51", b":0132CD\r\n").replies(":01320FBE"),
        serve("76 leaves the mask", b":014C00B3\r\n")
            .replies(":014C00B3")
            .stores(7, &[0x00]),
        serve("50 after 76", b":0132CD\r\n").replies(":01320FBE"),
    ]
}

fn mask_then_mode() -> Vec<Step> {
    vec![
        serve("51 writes the mask alone", b":0133F0DC\r\n")
            .replies(":0133F0DC")
            .stores(6, &[0xF0]),
        serve("50 after 51 alone", b":0132CD\r\n").replies(":0132F0DD"),
        serve("76 writes the mode alone", b":014CFFB4\r\n")
            .replies(":014CFFB4")
            .stores(7, &[0xFF]),
        serve("50 after 76", b":0132CD\r\n").replies(":0132F0DD"),
        serve("51 leaves the mode", b":013300CC\r\n")
            .replies(":013300CC")
            .stores(6, &[0x00]),
    ]
}

/// All fields at their highest and at their lowest, and then each just past.
fn clock() -> Vec<Step> {
    let highest = [59, 59, 23, 7, 31, 12, 99, 0, 0];
    let lowest = [0, 0, 0, 1, 1, 1, 0, 0, 0];
    let mut steps = vec![
        serve("highest values, hour 23", &ask(1, 77, &highest))
            .replies(":014DB2")
            .stores(8, &highest),
        serve("stored as sent", b":014EB1\r\n").replies(":014E3B3B17071F0C6300008F"),
        serve("lowest values", &ask(1, 77, &lowest))
            .replies(":014DB2")
            .stores(8, &lowest),
    ];
    for (rule, place, value) in [
        ("second 60", 0, 60),
        ("minute 60", 1, 60),
        ("hour 24", 2, 24),
        ("weekday 0", 3, 0),
        ("weekday 8", 3, 8),
        ("day 0", 4, 0),
        ("day 32", 4, 32),
        ("month 0", 5, 0),
        ("month 13", 5, 13),
        ("year 100", 6, 100),
        ("configuration 1", 7, 1),
        ("reserve 1", 8, 1),
    ] {
        let mut data = lowest;
        data[place] = value;
        steps.push(serve(rule, &ask(1, 77, &data)).refused(11));
    }
    steps
}

/// Data of command 53 with nothing in it, not even a gas composition.
fn zero_constants(channel: u8) -> [u8; 84] {
    let mut data = [0; 84];
    data[0] = channel;
    data
}

/// A taken command 53. Its reply has no data.
fn constants_taken(rule: &'static str, offset: usize, data: &[u8; 84]) -> Step {
    serve(rule, &ask(1, 53, data))
        .replies(":0135CA")
        .stores(offset, &data[1..])
        .signs(53, data[0], &data[1..])
}

fn gas_composition() -> Vec<Step> {
    let with = |gas| {
        let mut data = zero_constants(7);
        data[4] = gas; // body byte 7
        data
    };
    let seventh = 49 + 7 * 83;
    vec![
        serve("gas 0", &ask(1, 53, &with(0))).refused(11),
        constants_taken("gas 1, reply of 3 bytes", seventh, &with(1)),
        serve("gas 14", &ask(1, 53, &with(14))).refused(11),
        constants_taken("gas 13, reply of 3 bytes", seventh, &with(13)),
    ]
}

/// Both ends of each stretch of reserve, and the bytes on either side.
fn reserve() -> Vec<Step> {
    let with = |byte: usize| {
        let mut data = zero_constants(0);
        data[4] = 1;
        data[byte - 3] = 1; // body bytes count from 1, and the data from 3
        data
    };
    let taken = |byte| constants_taken("no reserve", 49, &with(byte));
    let refused = |byte| serve("reserve", &ask(1, 53, &with(byte))).refused(11);
    let mut steps = Vec::new();
    for (first, last) in [
        (17, 20),
        (23, 26),
        (29, 32),
        (35, 38),
        (43, 46),
        (49, 68),
        (71, 72),
    ] {
        steps.extend([taken(first - 1), refused(first)]);
        steps.extend([refused(last), taken(last + 1)]);
    }
    steps.extend([taken(74), refused(75)]);
    steps.push(serve("byte 78 is reserve", &ask(1, 53, &with(78))).refused(11));
    steps.push(constants_taken("byte 79 is none", 49, &with(79)));
    steps
}

fn parts() -> Vec<Step> {
    let rows: Vec<u8> = (1..=128).collect();
    let write = |rule, table, part| serve(rule, &ask(1, 59, &[&[table, part], &rows[..]].concat()));
    vec![
        write("59 echoes table and part", 12, 3)
            .replies(":013B0C03B5")
            .stores(FIRST_TABLE + 9 * 1408 + 2 * 128, &rows)
            .stores(35, &[0x00, 0x04])
            .stores(23_771, &[0x20, 0x40]),
        write("59 echoes table and part", 2, 11)
            .replies(":013B020BB7")
            .stores(FIRST_TABLE + 1408 + 10 * 128, &rows)
            .stores(19, &[0x04, 0x00])
            .stores(23_755, &[0x20, 0x40]),
        write("part 0", 2, 0).refused(10),
        write("part 12", 2, 12).refused(10),
        write("table 9", 9, 1).refused(10),
        write("table 10", 10, 1).refused(10),
    ]
}

fn error_rows() -> Vec<Step> {
    let data = |count: u8| {
        let mut data = vec![8, count];
        data.extend((0..count).flat_map(|row| [row, 0, 1]));
        data
    };
    let stored = |count| {
        let mut stored = data(count)[1..].to_vec();
        stored.resize(64, 0);
        stored
    };
    let write = |rule, count| serve(rule, &ask(1, 62, &data(count)));
    let eighth = FIRST_ERRORS + 7 * 64;
    vec![
        write("21 rows", 21)
            .replies(":013E08B9")
            .stores(eighth, &stored(21))
            .stores(23_815, &[0x00, 0xFC]),
        write("22 rows", 22).refused(9),
        serve("22 rows that are called 21", &{
            let mut data = data(22);
            data[1] = 21;
            ask(1, 62, &data)
        })
        .refused(9),
        write("no row", 0).refused(9),
        serve("a byte too many", &ask(1, 62, &[8, 1, 0, 0, 1, 0])).refused(9),
        serve("a byte too few", &ask(1, 62, &[8, 1, 0, 0])).refused(9),
        write("1 row, and none behind it", 1)
            .replies(":013E08B9")
            .stores(eighth, &stored(1))
            .stores(23_815, &[0x00, 0x02]),
    ]
}

/// A byte too few and a byte too many, where that still is a frame.
fn another_length() -> Vec<Step> {
    let lengths = [3, 4, 87, 4, 4, 133, 5, 4, 8, 4, 4, 4, 12, 3];
    let mut steps = Vec::new();
    for (command, length) in COMMANDS.into_iter().zip(lengths) {
        let data = |body: usize| vec![1; body - 3];
        if length > 3 {
            let frame = ask(1, command, &data(length - 1));
            steps.push(serve("a byte too few", &frame).refused(9));
        }
        if length < 133 {
            let frame = ask(1, command, &data(length + 1));
            steps.push(serve("a byte too many", &frame).refused(9));
        }
    }
    steps
}

/// Whatever the length of its body, since a command that is not served has
/// none of its own.
fn not_served() -> Vec<Step> {
    let mut steps = vec![
        serve("55 is served", b":013700C8\r\n").replies(":0137000000C8"),
        serve("56 is not", b":013800C7\r\n").refused(8),
    ];
    for command in [0, 49, 52, 56, 57, 58, 65, 75, 79, 83, 255] {
        for count in [0, 1, 2, 130] {
            let frame = ask(1, command, &vec![0; count]);
            steps.push(serve("no such command", &frame).refused(8));
        }
    }
    steps
}
