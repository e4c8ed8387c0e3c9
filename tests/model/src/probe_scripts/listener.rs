//! Scripts of document 02, wish 1: lines with frames and noise on them, given to
//! records as the line before left them and to records that are set to anything.

use super::Script;
use crate::lines::{any_length, any_line, cut, in_quiet, loud, of_length, quiet, requests};
use crate::probe::Then;
use crate::streams::{ask, faulty_data, faulty_frames, good_data, part, Rng, COMMANDS, WRITING};

const P1: &[u8] = b":0132CD\r\n";

/// How many bytes a long script has on its lines.
const LONG: usize = 18_000;
/// Places in the room and some behind it.
const PLACES: usize = 280;

/// Counts at and past the limit. Some are below it if their upper bytes are
/// dropped.
const COUNTS: [u64; 20] = [
    0,
    0,
    0,
    1,
    2,
    8,
    255,
    256,
    267,
    268,
    269,
    269,
    269,
    270,
    271,
    65_536 + 8,
    1 << 32,
    (1 << 32) + 8,
    1 << 63,
    u64::MAX,
];

impl Script {
    /// The flag and the count of the listener's record.
    pub fn gathering(&mut self, flag: u8, count: u64) -> &mut Self {
        self.given(b'R', &[flag]).0.extend(count.to_be_bytes());
        self
    }

    pub fn room_fill(&mut self, value: u8) -> &mut Self {
        self.given(b'Y', &[value])
    }

    pub fn room_poke(&mut self, offset: usize, value: u8) -> &mut Self {
        self.put(b'Q', offset, 2).0.push(value);
        self
    }

    fn room_poke_all(&mut self, offset: usize, bytes: &[u8]) -> &mut Self {
        for (place, &value) in (offset..).zip(bytes) {
            self.room_poke(place, value);
        }
        self
    }

    pub fn hear(&mut self, then: Then, line: &[u8]) -> &mut Self {
        self.counted(then.letter() as u8, line)
    }

    /// A line that is not served.
    fn line(&mut self, line: &[u8]) -> &mut Self {
        self.hear(Then::Nothing, line)
    }

    /// A line of which each frame is served.
    fn served(&mut self, line: &[u8]) -> &mut Self {
        self.hear(Then::Serve, line)
    }
}

/// Always the same few lines, at which faults are planted.
pub fn first_lines(_: &mut Rng) -> Script {
    let run = |length: usize| [&b":"[..], &vec![b'0'; length - 3], b"\r\n"].concat();
    let mut script = Script::default();
    script.line(P1).line(b":01:0132CD\r\n");
    script.line(&run(270)).line(P1); // the first is dropped at its end
    script.line(&run(269)).line(b":\r\n");
    script.gathering(1, 270).line(b"\r\n");
    script.fresh(1);
    script.served(b"\x00\r\n:01330FBD\r\n\x00:0132CD\r\n\r\n");
    script.gathering(1, 0).room_fill(b'\r').line(b"\n");
    script
}

/// Changes the record behind the listener's back: its room, its flag and count,
/// or all of them.
fn set_record(script: &mut Script, rng: &mut Rng) {
    if rng.percent(50) {
        let any = rng.byte();
        script.room_fill(rng.pick(&[any, b':', b'\r', b'\n', 0x00]));
    }
    let count = match rng.percent(30) {
        true => rng.below(PLACES) as u64,
        false => rng.pick(&COUNTS),
    };
    let any = rng.between(2, 255);
    script.gathering(rng.pick(&[0, 1, 1, any]), count);
    if count <= 270 && rng.percent(60) {
        // The last byte that is gathered, those beside it, and some others.
        for before in 0..3 {
            let value = rng.byte();
            let value = rng.pick(&[b'\r', b'\r', b'\n', b':', value]);
            script.room_poke((count as usize + 1).saturating_sub(before), value);
        }
    }
    for _ in 0..rng.below(3) {
        let any = rng.below(PLACES);
        script.room_poke(rng.pick(&[any, 0, 268, 269, 65_535]), rng.byte());
    }
}

/// A line in pieces, each of them served or not.
fn in_pieces(script: &mut Script, rng: &mut Rng, line: &[u8], served: usize) {
    for piece in cut(rng, line) {
        match rng.percent(served) {
            true => script.served(&piece),
            false => script.line(&piece),
        };
    }
}

/// Frames and noise by chance, mostly on the record that the line before left.
pub fn noisy(rng: &mut Rng) -> Script {
    let mut script = Script::default();
    let mut heard = 0;
    while heard < LONG {
        if rng.percent(15) {
            set_record(&mut script, rng);
        }
        let line = any_line(rng, 1);
        in_pieces(&mut script, rng, &line, 0);
        heard += line.len();
    }
    script
}

/// The same in one record, so that the bytes taken are many.
pub fn one_long_line(rng: &mut Rng) -> Script {
    let mut script = Script::default();
    let mut line = Vec::new();
    while line.len() < LONG {
        line.extend(any_line(rng, 1));
    }
    set_record(&mut script, rng);
    script.line(&line);
    script
}

/// Records about each limit with each kind of byte, and then records that are set
/// to anything, with one byte, or a few and then a frame.
pub fn any_record(rng: &mut Rng) -> Script {
    let mut script = Script::default();
    for count in [0, 1, 268, 269, 270] {
        for byte in b":\n\r0".repeat(2) {
            script.room_fill(rng.pick(b"\r\r0"));
            script.gathering(rng.between(1, 255), count).line(&[byte]);
        }
    }
    for round in 0..400 {
        set_record(&mut script, rng);
        let noise = match round % 4 {
            0 => vec![rng.pick(b":\r\n\n0")],
            1 => quiet(rng),
            2 => b"\n".to_vec(),
            _ => loud(rng, 1),
        };
        script.line(&noise[..noise.len().min(40)]);
        if rng.percent(30) {
            let length = 3 + rng.below(40);
            script.line(&of_length(rng, length));
        }
    }
    script
}

/// Runs about as long as a record has room for, with an end, with half of one
/// and with none, and what comes behind them.
pub fn long_runs(rng: &mut Rng) -> Script {
    let mut script = Script::default();
    for length in (264..=273).chain([280, 537, 538, 539]) {
        for less in [0, 1, 2] {
            let mut run = of_length(rng, length);
            run.truncate(length - less);
            let behind = match rng.below(4) {
                0 => b"\n".to_vec(),
                1 => b"\r\n".to_vec(),
                2 => b":\r\n".to_vec(),
                _ => quiet(rng),
            };
            in_pieces(&mut script, rng, &[run, behind].concat(), 0);
        }
        script.line(P1);
    }
    script
}

/// Frames of all commands with good data and with faults of their own, all of
/// them well-formed.
fn all_commands(rng: &mut Rng, address: u8) -> Vec<Vec<Vec<u8>>> {
    let mut lists = Vec::new();
    for command in COMMANDS {
        let good = ask(address, command, &good_data(rng, command));
        let [_, _, _, wrong] = faulty_frames(rng, &good);
        let mut list = vec![good.clone(), wrong, good];
        if command == 76 {
            list.push(ask(address, 76, &[0xFF])); // else it might never change
            list.push(ask(address, 76, &[0x00]));
        }
        for data in faulty_data(rng, command) {
            list.push(ask(address, command, &data));
        }
        list.push(ask(!address, command, &good_data(rng, command)));
        lists.push(list);
    }
    lists.push(vec![ask(address, 52, &[]), ask(address, 79, &[1])]);
    lists.push(some_parts(rng, address));
    lists
}

/// Parts of several tables are written, read and written over, and the tables
/// signed behind each.
fn some_parts(rng: &mut Rng, address: u8) -> Vec<Vec<u8>> {
    let table = rng.between(1, 8);
    let mut list = Vec::new();
    for (table, number) in [(table, 1), (table + 10, 11), (table, 11), (table, 1)] {
        list.push(ask(address, 59, &part(rng, table, number)));
        list.push(ask(address, 60, &[table, number]));
        list.push(ask(address, 61, &[table]));
    }
    list
}

/// A record that is not gathering. A count above the room says so too.
fn set_idle(script: &mut Script, rng: &mut Rng) {
    script.room_fill(rng.pick(b"\r\n:0"));
    let (any, over) = (rng.pick(&COUNTS), 270 + rng.below(1000) as u64);
    let (flag, count) = rng.pick(&[(0, any), (0, 9), (1, over), (1, u64::MAX)]);
    script.gathering(flag, count);
}

/// Each line has noise without 3Ah and is served from a record that is not
/// gathering, so that it is answered as its frames are alone.
pub fn served(rng: &mut Rng) -> Script {
    let mut script = Script::default();
    for address in [1, 0xCE] {
        script.fresh(address);
        for list in all_commands(rng, address) {
            script.output(269, rng.byte());
            if rng.percent(50) {
                set_idle(&mut script, rng);
            }
            script.served(&in_quiet(rng, &list));
        }
        let list = requests(rng, address);
        script.served(&in_quiet(rng, &list));
        script.held(1).held(12);
    }
    script
}

/// Noise of every kind, and lines in pieces of which not all are served.
pub fn served_in_any(rng: &mut Rng) -> Script {
    let mut script = Script::default();
    let address = rng.pick(&[1, 0xAB, 0xFF]);
    script.fresh(address);
    for list in all_commands(rng, address) {
        let mut line = Vec::new();
        for frame in list {
            line.extend(loud(rng, address).into_iter().take(60));
            line.extend(quiet(rng).into_iter().take(60));
            line.extend(frame);
        }
        in_pieces(&mut script, rng, &line, 90);
        if rng.percent(20) {
            set_record(&mut script, rng);
        }
    }
    for command in WRITING {
        script.serve(&ask(address, command, &good_data(rng, command)));
        unbegun(&mut script, rng, address);
    }
    script
}

/// The rest of a short frame for a record that has its beginning, or another
/// byte in the place of the 3Ah or of any other.
fn unbegun(script: &mut Script, rng: &mut Rng, address: u8) {
    let command = rng.pick(&[50, 51, 54, 60, 61, 78]);
    let frame = ask(address, command, &good_data(rng, command));
    let (mut begun, rest) = (frame.clone(), 1 + rng.below(frame.len() - 1));
    begun.truncate(rest);
    let any = rng.below(rest);
    begun[rng.pick(&[0, 0, any])] = rng.pick(b":0\r;");
    script.gathering(1, rest as u64).room_poke_all(0, &begun);
    script.served(&frame[rest..]);
}

/// Lines between calls of all kinds, on images that are not usable and with
/// outputs that are too short, too.
pub fn among_others(rng: &mut Rng) -> Script {
    let mut script = Script::default();
    let address = rng.pick(&[1, 0x3A, 0x80]);
    script.fresh(address);
    for round in 0..24 {
        script.output(rng.pick(&[269, 269, 270, 400]), rng.byte());
        match round % 6 {
            0 => drop(script.output(rng.pick(&[0, 268]), rng.byte())),
            1 => drop(script.poke(5, 0)),
            2 => drop(script.image_length(23_816)),
            3 => super::old_bytes(&mut script, rng),
            _ => {}
        }
        let list = requests(rng, address);
        let line = in_quiet(rng, &list);
        in_pieces(&mut script, rng, &line, 80);
        script.image_length(super::IMAGE_BYTES).poke(5, address);
        if let Some(frame) = list.first() {
            script.serve_sealed(frame).serve(frame).take_apart(frame);
        }
        if round % 5 == 4 {
            super::moves::about(&mut script, rng, address);
        }
        script.held(rng.below(20) as u32);
    }
    script.show_all();
    script
}

/// A line among calls by chance, served or in part so.
pub fn off_the_line<'a>(script: &'a mut Script, rng: &mut Rng, address: u8) -> &'a mut Script {
    if rng.percent(10) {
        set_record(script, rng);
    }
    let list = requests(rng, address);
    match rng.below(4) {
        0 => {
            let line = any_line(rng, address);
            in_pieces(script, rng, &line, 70);
        }
        1 => {
            let length = any_length(rng);
            script.line(&of_length(rng, length));
            unbegun(script, rng, address);
        }
        _ => drop(script.served(&in_quiet(rng, &list))),
    }
    script
}
