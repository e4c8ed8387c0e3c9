//! Frames for the speed test, made for an image of address 1.
//!
//!     frames STREAM N SEED
//!
//! writes N records: the frame's kind and its length, two bytes each and the low
//! one first, then the frame. The kind of a frame that is served is its command,
//! 50 to 78; that of one that is refused is the number that refuses it, 3 to 11
//! or 16. One of kind 16 is to be served sealed, every other unsealed.
//!
//!     mix     tables and reads, and one frame in twenty is refused
//!     even    every command and every refusal alike; one frame in eight in
//!             small letters
//!     poll    short reads, and one frame in twenty is refused

use std::env;
use std::io::{self, BufWriter, Write};
use std::process::ExitCode;

/// The commands, with how often each comes in `mix` and in `poll`.
const COMMANDS: [(u8, usize, usize); 14] = [
    (50, 12, 25),
    (51, 3, 2),
    (53, 4, 1),
    (54, 8, 5),
    (55, 4, 8),
    (59, 20, 1),
    (60, 15, 4),
    (61, 4, 8),
    (62, 4, 1),
    (63, 6, 6),
    (64, 3, 8),
    (76, 2, 2),
    (77, 2, 2),
    (78, 8, 25),
];
/// Those that a sealed block refuses.
const WRITES: [u8; 6] = [51, 53, 59, 62, 76, 77];
/// The numbers that refuse a frame, whatever the image and the output are.
const REFUSALS: [u8; 10] = [3, 4, 5, 6, 7, 8, 9, 10, 11, 16];

const ADDRESS: u8 = 1;
const TABLES: [u8; 16] = [1, 2, 3, 4, 5, 6, 7, 8, 11, 12, 13, 14, 15, 16, 17, 18];
const NO_TABLES: [u8; 5] = [0, 9, 10, 19, 255];
const NO_ERROR_TABLES: [u8; 3] = [0, 9, 255];
const NO_PARTS: [u8; 3] = [0, 12, 255];
/// Characters outside the three ranges of digits: those beside them, and others.
const NO_DIGITS: &[u8] = b"/:@G`g ;<=>?Zz\x00\xFF";
/// Body bytes of the constants, counted from 1 at the address, that stay 0.
const RESERVE: [(u8, u8); 8] = [
    (17, 20),
    (23, 26),
    (29, 32),
    (35, 38),
    (43, 46),
    (49, 68),
    (71, 72),
    (75, 78),
];
const LONGEST_CONTENTS: usize = 132;
const TOO_LONG: usize = 271;

#[derive(Clone, Copy, PartialEq)]
enum Stream {
    Mix,
    Even,
    Poll,
}

fn main() -> ExitCode {
    let words: Vec<String> = env::args().skip(1).collect();
    let Some((stream, n, seed)) = wanted(&words) else {
        eprintln!("usage: frames mix|even|poll N SEED");
        return ExitCode::from(2);
    };
    let mut maker = Maker {
        stream,
        numbers: Numbers(seed),
    };
    match maker.write(n, BufWriter::new(io::stdout().lock())) {
        Ok(()) => ExitCode::SUCCESS,
        Err(fault) => {
            eprintln!("frames: {fault}");
            ExitCode::FAILURE
        }
    }
}

fn wanted(words: &[String]) -> Option<(Stream, usize, u64)> {
    let [stream, n, seed] = words else {
        return None;
    };
    let stream = match stream.as_str() {
        "mix" => Stream::Mix,
        "even" => Stream::Even,
        "poll" => Stream::Poll,
        _ => return None,
    };
    Some((stream, n.parse().ok()?, seed.parse().ok()?))
}

/// A splitmix64 generator.
struct Numbers(u64);

impl Numbers {
    fn next(&mut self) -> u64 {
        self.0 = self.0.wrapping_add(0x9E37_79B9_7F4A_7C15);
        let z = (self.0 ^ self.0 >> 30).wrapping_mul(0xBF58_476D_1CE4_E5B9);
        let z = (z ^ z >> 27).wrapping_mul(0x94D0_49BB_1331_11EB);
        z ^ z >> 31
    }

    fn below(&mut self, limit: usize) -> usize {
        (self.next() % limit as u64) as usize
    }

    fn between(&mut self, low: u8, high: u8) -> u8 {
        low + self.below(usize::from(high - low) + 1) as u8
    }

    fn one_of<T: Copy>(&mut self, these: &[T]) -> T {
        these[self.below(these.len())]
    }

    /// Whether it is one of so many times.
    fn once_in(&mut self, times: usize) -> bool {
        self.below(times) == 0
    }

    fn bytes(&mut self, n: usize) -> Vec<u8> {
        (0..n).map(|_| self.between(0, 255)).collect()
    }
}

struct Maker {
    stream: Stream,
    numbers: Numbers,
}

impl Maker {
    fn write(&mut self, n: usize, mut to: impl Write) -> io::Result<()> {
        // Each kind comes once at the start, so that none is missing.
        let first: Vec<u8> = all_kinds().collect();
        for place in 0..n {
            let kind = match first.get(place) {
                Some(&kind) => kind,
                None => self.kind(),
            };
            let mut frame = self.frame(kind);
            if self.stream == Stream::Even && self.numbers.once_in(8) {
                frame.make_ascii_lowercase();
            }
            to.write_all(&u16::from(kind).to_le_bytes())?;
            to.write_all(&(frame.len() as u16).to_le_bytes())?;
            to.write_all(&frame)?;
        }
        to.flush()
    }

    fn kind(&mut self) -> u8 {
        if self.stream == Stream::Even {
            let kinds: Vec<u8> = all_kinds().collect();
            self.numbers.one_of(&kinds)
        } else if self.numbers.once_in(20) {
            self.numbers.one_of(&REFUSALS)
        } else {
            self.command()
        }
    }

    /// A command, as often as the stream has it.
    fn command(&mut self) -> u8 {
        let weight = |row: &(u8, usize, usize)| match self.stream {
            Stream::Poll => row.2,
            Stream::Mix | Stream::Even => row.1,
        };
        let all = COMMANDS.iter().map(weight).sum();
        let mut left = self.numbers.below(all);
        for row in &COMMANDS {
            let share = weight(row);
            if left < share {
                return row.0;
            }
            left -= share;
        }
        unreachable!("the shares add up to more than was drawn")
    }

    fn frame(&mut self, kind: u8) -> Vec<u8> {
        match kind {
            3 => self.of_wrong_length(),
            4 => self.with_wrong_ends(),
            5 => self.with_no_digit(),
            6 => {
                let off = self.numbers.between(1, 255);
                let contents = self.any_contents();
                framed(&contents, off)
            }
            7 => {
                let mut contents = self.any_contents();
                contents[0] = ADDRESS.wrapping_add(self.numbers.between(1, 255));
                framed(&contents, 0)
            }
            8 => {
                let mut contents = self.any_contents();
                while COMMANDS.iter().any(|row| row.0 == contents[1]) {
                    contents[1] = self.numbers.between(0, 255);
                }
                framed(&contents, 0)
            }
            9 => {
                let mut contents = self.any_contents();
                if contents.len() < LONGEST_CONTENTS {
                    contents.push(self.numbers.between(0, 255));
                } else {
                    contents.pop();
                }
                framed(&contents, 0)
            }
            10 => framed(&self.with_no_item(), 0),
            11 => framed(&self.with_wrong_value(), 0),
            16 => loop {
                let command = self.command();
                if WRITES.contains(&command) {
                    break framed(&self.contents(command), 0);
                }
            },
            command => framed(&self.contents(command), 0),
        }
    }

    fn any_contents(&mut self) -> Vec<u8> {
        let command = self.command();
        self.contents(command)
    }

    /// Contents that are served: address, command and data.
    fn contents(&mut self, command: u8) -> Vec<u8> {
        let numbers = &mut self.numbers;
        let mut contents = vec![ADDRESS, command];
        match command {
            51 => contents.extend(numbers.bytes(1)),
            53 => {
                contents.push(numbers.between(0, 7));
                contents.extend(numbers.bytes(83));
                for (first, last) in RESERVE {
                    contents[usize::from(first) - 1..usize::from(last)].fill(0);
                }
                contents[6] = numbers.between(1, 13);
            }
            54 | 55 => contents.push(numbers.between(0, 7)),
            59 => {
                contents.extend([numbers.one_of(&TABLES), numbers.between(1, 11)]);
                contents.extend(numbers.bytes(128));
            }
            60 => contents.extend([numbers.one_of(&TABLES), numbers.between(1, 11)]),
            61 => contents.push(numbers.one_of(&TABLES)),
            62 => {
                let rows = numbers.between(1, 21);
                contents.extend([numbers.between(1, 8), rows]);
                for temperature in self.rising(rows) {
                    contents.push(temperature as u8);
                    contents.extend(self.numbers.bytes(2));
                }
            }
            63 | 64 => contents.push(numbers.between(1, 8)),
            76 => contents.push(numbers.one_of(&[0x00, 0xFF])),
            77 => contents.extend([
                numbers.between(0, 59),
                numbers.between(0, 59),
                numbers.between(0, 23),
                numbers.between(1, 7),
                numbers.between(1, 31),
                numbers.between(1, 12),
                numbers.between(0, 99),
                0,
                0,
            ]),
            _ => {} // 50 and 78 have no data
        }
        contents
    }

    /// So many temperatures that rise, of those from -127 to +128. As a byte,
    /// +128 is 80h.
    fn rising(&mut self, rows: u8) -> Vec<i16> {
        let mut wanted = usize::from(rows);
        let mut rising = Vec::with_capacity(wanted);
        for (gone, temperature) in (-127..=128).enumerate() {
            if self.numbers.below(256 - gone) < wanted {
                rising.push(temperature);
                wanted -= 1;
            }
        }
        rising
    }

    fn of_wrong_length(&mut self) -> Vec<u8> {
        let contents = self.any_contents();
        let mut frame = framed(&contents, 0);
        match self.numbers.below(10) {
            0..=3 => frame.truncate(frame.len() - 1),
            4..=6 => frame.truncate(self.numbers.one_of(&[0, 1, 5, 7])),
            _ => frame.resize(TOO_LONG, b'0'),
        }
        frame
    }

    fn with_wrong_ends(&mut self) -> Vec<u8> {
        let contents = self.any_contents();
        let mut frame = framed(&contents, 0);
        let end = frame.len();
        match self.numbers.below(3) {
            0 => frame[0] = b';',
            1 => frame[end - 2] = b' ',
            _ => frame[end - 1] = b'\r',
        }
        frame
    }

    fn with_no_digit(&mut self) -> Vec<u8> {
        let contents = self.any_contents();
        let mut frame = framed(&contents, 0);
        let place = 1 + self.numbers.below(frame.len() - 3);
        frame[place] = self.numbers.one_of(NO_DIGITS);
        frame
    }

    fn with_no_item(&mut self) -> Vec<u8> {
        let command = self.numbers.one_of(&[53, 54, 55, 59, 60, 61, 62, 63, 64]);
        let mut contents = self.contents(command);
        let second = self.numbers.once_in(2);
        match command {
            53..=55 => contents[2] = self.numbers.between(8, 255),
            59 | 60 if second => contents[3] = self.numbers.one_of(&NO_PARTS),
            59..=61 => contents[2] = self.numbers.one_of(&NO_TABLES),
            62 if second => contents[3] += 1,
            _ => contents[2] = self.numbers.one_of(&NO_ERROR_TABLES),
        }
        contents
    }

    fn with_wrong_value(&mut self) -> Vec<u8> {
        let command = self.numbers.one_of(&[53, 53, 62, 76, 77]);
        let mut contents = self.contents(command);
        match command {
            53 if self.numbers.once_in(3) => contents[6] = self.numbers.one_of(&[0, 14, 255]),
            53 => {
                let (first, last) = self.numbers.one_of(&RESERVE);
                let place = usize::from(self.numbers.between(first, last)) - 1;
                contents[place] = self.numbers.between(1, 255);
            }
            62 => {
                // Two rows or more; one of them is as the one before it, or has what is a degree lower.
                while contents[3] < 2 {
                    contents = self.contents(command);
                }
                let row = 4 + 3 * usize::from(self.numbers.between(1, contents[3] - 1));
                let before = contents[row - 3];
                let falls = before != 0x81 && self.numbers.once_in(2);
                contents[row] = before.wrapping_sub(u8::from(falls));
            }
            76 => contents[2] = self.numbers.between(1, 254),
            _ => contents[2 + self.numbers.below(9)] = 200,
        }
        contents
    }
}

fn all_kinds() -> impl Iterator<Item = u8> {
    COMMANDS.iter().map(|row| row.0).chain(REFUSALS)
}

/// The frame of these contents, in capitals; its checksum is off by so much.
fn framed(contents: &[u8], off: u8) -> Vec<u8> {
    let sum = contents
        .iter()
        .fold(0u8, |sum, &byte| sum.wrapping_add(byte));
    let checksum = sum.wrapping_neg().wrapping_add(off);
    let mut frame = vec![b':'];
    for byte in contents.iter().chain([&checksum]) {
        frame.extend(format!("{byte:02X}").bytes());
    }
    frame.extend(b"\r\n");
    frame
}
