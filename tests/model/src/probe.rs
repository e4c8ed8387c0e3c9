//! The probe program: a script of calls on buffers of any length, so that
//! what the desk cannot show (numbers 1 and 2, images, moves from one version
//! to the other, untouched output, what a listener hands out, the volume at a
//! level, the number of a table file) is compared as well.

use std::mem::swap;

use crate::block::{self, Refusal, Switch, IMAGE_BYTES};
use crate::listener::Listener;
use crate::table_file;

pub const SCRIPT_MAX: usize = 65_536;

pub const IMAGE_ROOM: usize = 24_000;
pub const OUTPUT_ROOM: usize = 400;

/// One record of a script.
#[derive(Clone, Copy)]
pub enum Record<'a> {
    ImageLength(usize),
    Poke {
        offset: usize,
        value: u8,
    },
    Fill(u8),
    /// The image buffer and the second one change places.
    Exchange,
    Output {
        length: usize,
        fill: u8,
    },
    Fresh(u8),
    Serve(Switch, &'a [u8]),
    TakeApart(&'a [u8]),
    Build(&'a [u8]),
    Held(u32),
    /// The volume of a table at a level.
    Quantity {
        table: u32,
        level: u32,
    },
    /// Bytes that are checked as a table file.
    TableFile(&'a [u8]),
    MoveUp,
    MoveDown,
    /// The flag and the count of the listener's record.
    Gathering {
        flag: bool,
        count: u64,
    },
    RoomFill(u8),
    RoomPoke {
        offset: usize,
        value: u8,
    },
    /// Bytes that the listener takes.
    Line(Then, &'a [u8]),
    /// An unknown letter, or a record that the script's end cuts off.
    Broken,
}

/// What becomes of a frame that the listener hands out, before the next byte.
#[derive(Clone, Copy, Debug, PartialEq, Eq)]
pub enum Then {
    Nothing,
    Serve,
}

impl Then {
    /// The letter of the records that give the listener a line.
    pub fn letter(self) -> char {
        match self {
            Then::Nothing => 'N',
            Then::Serve => 'V',
        }
    }
}

/// The records of a script, of which only the first 65,536 bytes are read.
pub struct Records<'a> {
    rest: &'a [u8],
}

impl<'a> Records<'a> {
    pub fn new(script: &'a [u8]) -> Self {
        let length = script.len().min(SCRIPT_MAX);
        Records {
            rest: &script[..length],
        }
    }

    /// The letter that comes next, if the script goes on.
    pub fn letter(&self) -> Option<u8> {
        self.rest.first().copied()
    }

    /// Nothing after a broken record is read.
    pub fn end(&mut self) {
        self.rest = &[];
    }

    fn take(&mut self, count: usize) -> Option<&'a [u8]> {
        let (taken, rest) = self.rest.split_at_checked(count)?;
        self.rest = rest;
        Some(taken)
    }

    /// A number of this many bytes, high byte first.
    pub fn number(&mut self, count: usize) -> Option<usize> {
        let bytes = self.take(count)?;
        Some(
            bytes
                .iter()
                .fold(0, |sum, &byte| sum << 8 | usize::from(byte)),
        )
    }

    pub fn byte(&mut self) -> Option<u8> {
        Some(self.take(1)?[0])
    }

    pub fn counted(&mut self) -> Option<&'a [u8]> {
        let length = self.number(2)?;
        self.take(length)
    }

    /// The whole record, or nothing if it is unknown or cut short.
    pub fn record(&mut self) -> Option<Record<'a>> {
        Some(match self.byte()? {
            b'L' => Record::ImageLength(self.number(3)?.min(IMAGE_ROOM)),
            b'P' => Record::Poke {
                offset: self.number(3)?,
                value: self.byte()?,
            },
            b'W' => Record::Fill(self.byte()?),
            b'X' => Record::Exchange,
            b'O' => Record::Output {
                length: self.number(2)?.min(OUTPUT_ROOM),
                fill: self.byte()?,
            },
            b'F' => Record::Fresh(self.byte()?),
            b'S' => Record::Serve(Switch::Unsealed, self.counted()?),
            b'K' => Record::Serve(Switch::Sealed, self.counted()?),
            b'T' => Record::TakeApart(self.counted()?),
            b'B' => Record::Build(self.counted()?),
            b'H' => Record::Held(self.number(4)? as u32),
            b'A' => Record::Quantity {
                table: self.number(4)? as u32,
                level: self.number(4)? as u32,
            },
            b'C' => Record::TableFile(self.counted()?),
            b'U' => Record::MoveUp,
            b'D' => Record::MoveDown,
            b'R' => Record::Gathering {
                flag: self.byte()? != 0,
                count: self.number(8)? as u64,
            },
            b'Y' => Record::RoomFill(self.byte()?),
            b'Q' => Record::RoomPoke {
                offset: self.number(2)?,
                value: self.byte()?,
            },
            b'N' => Record::Line(Then::Nothing, self.counted()?),
            b'V' => Record::Line(Then::Serve, self.counted()?),
            _ => return None,
        })
    }
}

impl<'a> Iterator for Records<'a> {
    type Item = Record<'a>;

    fn next(&mut self) -> Option<Record<'a>> {
        self.letter()?;
        let record = self.record();
        if record.is_none() {
            self.end();
        }
        Some(record.unwrap_or(Record::Broken))
    }
}

/// The three buffers, with the lengths that the calls see of them, and the
/// listener's record.
#[derive(Clone)]
pub struct Probe {
    image: Vec<u8>,
    pub image_length: usize,
    second: Vec<u8>,
    pub second_length: usize,
    output: Vec<u8>,
    pub output_length: usize,
    pub listener: Listener,
}

/// A frame that was served off the line, by the probe as it then is.
pub struct Served<'a> {
    pub probe: &'a Probe,
    pub frame: &'a [u8],
    pub line: &'a str,
    pub image_before: &'a [u8],
}

impl Probe {
    pub fn new() -> Self {
        Probe {
            image: vec![0; IMAGE_ROOM],
            image_length: IMAGE_BYTES,
            second: vec![0; IMAGE_ROOM],
            second_length: IMAGE_BYTES,
            output: vec![0; OUTPUT_ROOM],
            output_length: 269,
            listener: Listener::new(),
        }
    }

    /// The image as the calls see it.
    pub fn image(&self) -> &[u8] {
        &self.image[..self.image_length]
    }

    /// The second buffer as the moves see it.
    pub fn second(&self) -> &[u8] {
        &self.second[..self.second_length]
    }

    /// What stands in the output before the first 0Dh; after a frame was
    /// served, the reply without its last two bytes.
    pub fn reply(&self) -> &[u8] {
        let mut parts = self.output.split(|&byte| byte == b'\r');
        parts.next().unwrap_or_default()
    }

    /// Carries out a record and gives the lines it prints.
    pub fn step(&mut self, record: Record) -> Vec<String> {
        match record {
            Record::Line(then, line) => self.hear(then, line, |_| ()),
            _ => self.call(record).into_iter().collect(),
        }
    }

    /// Lets the listener take a line and gives the lines that this prints. Each
    /// frame that is served is shown as it comes up.
    pub fn hear(&mut self, then: Then, line: &[u8], mut show: impl FnMut(Served)) -> Vec<String> {
        let mut lines = Vec::new();
        for (taken, &byte) in (1..).zip(line) {
            let Some(frame) = self.listener.take(byte).map(<[u8]>::to_vec) else {
                continue;
            };
            lines.push(format!("G {taken} {} {}", frame.len(), digest(&frame)));
            if then == Then::Serve {
                let image_before = self.image().to_vec();
                let line = self.serve('S', Switch::Unsealed, &frame);
                show(Served {
                    probe: self,
                    frame: &frame,
                    line: &line,
                    image_before: &image_before,
                });
                lines.push(line);
            }
        }
        let Listener {
            room,
            count,
            gathering,
        } = &self.listener;
        let (letter, flag) = (then.letter(), u8::from(*gathering));
        lines.push(format!("{letter} {count} {flag} {}", digest(room)));
        lines
    }

    /// Serves a frame and gives the line for it, which begins with this letter.
    pub fn serve(&mut self, letter: char, switch: Switch, frame: &[u8]) -> String {
        let image = &mut self.image[..self.image_length];
        let output = &mut self.output[..self.output_length];
        let answer = spell(block::serve(switch, image, frame, output));
        let (image, output) = (digest(image), digest(output));
        format!("{letter} {answer} {image} {output}")
    }

    /// Asks which parts of a table are held and gives the line for it, which begins
    /// with this letter.
    pub fn held(&self, letter: char, table: u64) -> String {
        let answer = block::held_parts(self.image(), table);
        let number = number(&answer);
        let (parts, missing) = answer.unwrap_or((0, 0));
        format!("{letter} {number} {parts} {missing}")
    }

    /// Carries out a record that is no line and gives what it prints, if it
    /// prints anything.
    pub fn call(&mut self, record: Record) -> Option<String> {
        let image = &mut self.image[..self.image_length];
        let second = &mut self.second[..self.second_length];
        let output = &mut self.output[..self.output_length];
        Some(match record {
            Record::Fresh(address) => {
                let number = number(&block::fresh(image, address));
                format!("F {number} {}", digest(image))
            }
            Record::Serve(switch, frame) => self.serve(serving(switch), switch, frame),
            Record::TakeApart(frame) => {
                let answer = spell(block::take_apart(frame, output));
                format!("T {answer} {}", digest(output))
            }
            Record::Build(contents) => {
                let answer = spell(block::build(contents, output));
                format!("B {answer} {}", digest(output))
            }
            Record::Held(table) => self.held('H', u64::from(table)),
            Record::Quantity { table, level } => {
                let answer = block::volume_at(image, table, level);
                format!("A {} {}", number(&answer), answer.unwrap_or(0))
            }
            Record::TableFile(file) => format!("C {}", table_file::number(file)),
            Record::MoveUp => {
                let number = number(&block::move_up(image, second));
                format!("U {number} {} {}", digest(image), digest(second))
            }
            Record::MoveDown => {
                let number = number(&block::move_down(image, second));
                format!("D {number} {} {}", digest(image), digest(second))
            }
            Record::Broken => "?".to_string(),
            _ => {
                self.set(record);
                return None;
            }
        })
    }

    /// Carries out a record that only changes what the calls will find.
    fn set(&mut self, record: Record) {
        match record {
            Record::ImageLength(length) => self.image_length = length,
            Record::Poke { offset, value } => poke(&mut self.image, offset, value),
            Record::Fill(value) => self.image.fill(value),
            Record::Exchange => {
                swap(&mut self.image, &mut self.second);
                swap(&mut self.image_length, &mut self.second_length);
            }
            Record::Output { length, fill } => {
                self.output_length = length;
                self.output.fill(fill);
            }
            Record::Gathering { flag, count } => {
                self.listener.gathering = flag;
                self.listener.count = count;
            }
            Record::RoomFill(value) => self.listener.room.fill(value),
            Record::RoomPoke { offset, value } => poke(&mut self.listener.room, offset, value),
            _ => {}
        }
    }
}

/// Changes the byte at this offset, if there is one.
fn poke(bytes: &mut [u8], offset: usize, value: u8) {
    if let Some(byte) = bytes.get_mut(offset) {
        *byte = value;
    }
}

/// The letter of the records that serve with the switch in this position.
pub fn serving(switch: Switch) -> char {
    match switch {
        Switch::Unsealed => 'S',
        Switch::Sealed => 'K',
    }
}

/// The probe's lines, without their line feeds.
pub fn lines(script: &[u8]) -> Vec<String> {
    let mut probe = Probe::new();
    Records::new(script)
        .flat_map(|record| probe.step(record))
        .collect()
}

fn spell(answer: Result<usize, Refusal>) -> String {
    format!("{} {}", number(&answer), answer.unwrap_or(0))
}

fn number<T>(answer: &Result<T, Refusal>) -> u8 {
    match answer {
        Ok(_) => 0,
        Err(refusal) => refusal.number(),
    }
}

/// Short stand-in for a buffer: any changed byte changes it but by chance.
/// What three bytes make of it stays below 2 to the 64th, so that a remainder
/// is taken after every third only, for that takes long.
pub fn digest(bytes: &[u8]) -> u64 {
    bytes.chunks(3).fold(1, |digest, three| {
        let with = |h, &byte| h * 257 + u64::from(byte) + 1;
        three.iter().fold(digest, with) % 4_294_967_291
    })
}
