//! Lists drawn for wish 14: a few cells are written, read and written again,
//! with refused frames and frames sent once more among them.

use std::mem::swap;

use crate::block::Switch;
use crate::cells::Deed;
use crate::items::{item, sum, WORDS};
use crate::streams::{
    ask, clock, constants, either_case, errors, faulty_frames, part, Rng, COMMANDS, WRITING,
};

/// The cells that a list is about.
pub struct Field {
    pub address: u8,
    /// Their numbers leave the same remainder by 10.
    pub tables: [u8; 2],
    /// One behind the other, as the channels and the error tables are.
    pub parts: [u8; 2],
    pub channels: [u8; 2],
    pub errors: [u8; 2],
}

/// Commands for a list; a part is sent more often than anything else.
const SENT: [u8; 20] = [
    51, 53, 59, 59, 59, 59, 62, 62, 76, 77, 50, 54, 55, 60, 60, 61, 61, 63, 64, 78,
];

impl Field {
    pub fn new(rng: &mut Rng, address: u8) -> Self {
        let (table, first) = (rng.between(1, 8), rng.between(1, 11));
        let channel = rng.between(0, 7);
        let beside = (channel + 1) % 8;
        Field {
            address,
            tables: rng.pick(&[[table, table + 10], [table + 10, table]]),
            parts: [first, 1 + first % 11],
            channels: [channel, beside],
            errors: [channel + 1, beside + 1],
        }
    }

    /// Good data of a command for one of the cells. An error table that has one
    /// row alone comes up as often as one of 21 rows.
    pub fn data(&self, rng: &mut Rng, command: u8) -> Vec<u8> {
        let [one, other] = self.tables;
        let table = rng.pick(&[one, one, one, other]);
        let number = rng.pick(&self.parts);
        match command {
            51 => vec![rng.byte()],
            53 => {
                let channel = rng.pick(&self.channels);
                constants(rng, channel)
            }
            54 | 55 => vec![rng.pick(&self.channels)],
            59 => part(rng, table, number),
            60 => vec![table, number],
            61 => vec![table],
            62 => {
                let (number, any) = (rng.pick(&self.errors), rng.between(2, 20));
                let count = rng.pick(&[1, any, 21]);
                errors(rng, number, count)
            }
            63 | 64 => vec![rng.pick(&self.errors)],
            76 => vec![rng.pick(&[0x00, 0xFF])],
            77 => clock(rng),
            _ => Vec::new(),
        }
    }

    /// A frame that is refused, of which most name a cell all the same. Each
    /// ends with 0Ah and has no other.
    pub fn refused(&self, rng: &mut Rng) -> Vec<u8> {
        let command = rng.pick(&COMMANDS);
        let data = self.data(rng, command);
        let good = ask(self.address, command, &data);
        match rng.below(6) {
            0 => ask(!self.address, command, &data),
            1 => ask(self.address, rng.pick(&[0, 52, 65, 79]), &data),
            2 => faulty_frames(rng, &good)[2].clone(),
            3 => faulty_frames(rng, &good)[3].clone(),
            _ => {
                let command = rng.pick(&[53, 62, 76, 77]);
                let data = self.data(rng, command);
                ask(self.address, command, &with_bad_value(command, data))
            }
        }
    }

    /// So many frames.
    pub fn list(&self, rng: &mut Rng, count: usize) -> Vec<Vec<u8>> {
        let mut list: Vec<Vec<u8>> = Vec::new();
        while list.len() < count {
            let frame = match rng.below(20) {
                0..=3 if !list.is_empty() => list[rng.below(list.len())].clone(),
                4..=6 => self.refused(rng),
                _ => {
                    let command = rng.pick(&SENT);
                    ask(self.address, command, &self.data(rng, command))
                }
            };
            list.push(match rng.percent(15) {
                true => either_case(rng, frame),
                false => frame,
            });
        }
        list
    }

    /// Frames of which no two clash, every fifth of them refused.
    pub fn apart(&self, rng: &mut Rng) -> Vec<Vec<u8>> {
        let mut list: Vec<Vec<u8>> = Vec::new();
        for command in COMMANDS.repeat(2) {
            let frame = ask(self.address, command, &self.data(rng, command));
            let deed = Deed::new(Switch::Unsealed, self.address, &frame);
            let others = deeds(Switch::Unsealed, self.address, &list);
            if others.iter().all(|other| !other.clashes(&deed)) {
                list.push(frame);
            }
            if list.len() % 5 == 4 {
                list.push(self.refused(rng));
            }
        }
        list
    }

    /// One of the writing commands sent over and over for one cell, each time
    /// with everything that reads the cell behind it: to another address and
    /// then to this one, with other bytes, with these again and with a wrong
    /// checksum, with the first bytes again and to another address.
    pub fn repeated(&self, rng: &mut Rng, command: u8) -> Vec<Vec<u8>> {
        let [first, second, third] = self.three(rng, command);
        let sent = |data: &[u8]| ask(self.address, command, data);
        let wrong = faulty_frames(rng, &sent(&third))[3].clone();
        let elsewhere = ask(!self.address, command, &third);
        let reads = self.reads_of(&sent(&first));
        let mut list = Vec::new();
        for frames in [
            vec![elsewhere.clone(), sent(&first)],
            vec![sent(&second)],
            vec![sent(&second), wrong],
            vec![sent(&first), elsewhere],
        ] {
            list.extend(frames);
            list.extend(reads.iter().cloned());
        }
        list
    }

    /// Data of three good writes of one cell. The second differs from the first.
    pub fn three(&self, rng: &mut Rng, command: u8) -> [Vec<u8>; 3] {
        let first = self.data(rng, command);
        let named = |data: &[u8]| Deed::meant(&ask(self.address, command, data)).written();
        let mut another = |unlike: &[u8]| loop {
            let data = self.data(rng, command);
            if named(&data) == named(&first) && data != unlike {
                return data;
            }
        };
        let (second, third) = (another(&first), another(&[]));
        [first, second, third]
    }

    /// A frame of each command that reads the cell which this one writes.
    pub fn reads_of(&self, write: &[u8]) -> Vec<Vec<u8>> {
        let write = Deed::meant(write);
        let [c, d] = self.channels;
        let [e, f] = self.errors;
        let mut asked = vec![(50, vec![]), (78, vec![])];
        for (one, two) in [(c, e), (d, f)] {
            asked.extend([54, 55].map(|command| (command, vec![one])));
            asked.extend([63, 64].map(|command| (command, vec![two])));
        }
        for table in self.tables {
            asked.extend(self.parts.map(|part| (60, vec![table, part])));
            asked.push((61, vec![table]));
        }
        let frames = asked
            .iter()
            .map(|(command, data)| ask(self.address, *command, data));
        frames
            .filter(|frame| Deed::new(Switch::Unsealed, self.address, frame).clashes(&write))
            .collect()
    }

    /// Bytes for the cells, and where they lie. The image stays usable.
    pub fn old_bytes(&self, rng: &mut Rng) -> Vec<(usize, Vec<u8>)> {
        let mut bytes = vec![(6, rng.bytes(11))];
        for command in [53, 59, 62].repeat(2) {
            let write = ask(self.address, command, &self.data(rng, command));
            let cell = Deed::meant(&write).written().expect("good data");
            let place = cell.place();
            // Behind the row count, if there is one.
            let at = place.start + 1 + rng.below(place.len() - 9);
            bytes.push((at, rng.bytes(8)));
            match (cell.bit(), command) {
                (Some((byte, bit)), _) if rng.percent(50) => bytes.push((byte, vec![bit])),
                (_, 62) => bytes.push((place.start, vec![rng.between(0, 21)])),
                _ => {}
            }
        }
        bytes
    }

    /// Words for the items; hardly one of them is true.
    pub fn false_words(&self, rng: &mut Rng) -> Vec<(usize, Vec<u8>)> {
        let items = [(53, self.channels), (59, self.tables), (62, self.errors)];
        let mut words = Vec::new();
        for (command, [one, other]) in items {
            for number in [one, other] {
                let item = item(command, number).expect("the command can name it");
                words.push((item.word, rng.bytes(2)));
            }
        }
        words.push((WORDS.start + rng.below(64), rng.bytes(1)));
        words
    }
}

/// The same data with a value that is outside its rule, or for a table of one
/// row with a row too many.
fn with_bad_value(command: u8, mut data: Vec<u8>) -> Vec<u8> {
    match command {
        53 => data[4] = 14, // the gas composition
        62 if data[1] == 1 => data.push(0),
        62 => data[5] = data[2], // the second row like the first
        76 => data[0] = 0x01,
        _ => data[2] = 24, // the hour
    }
    data
}

/// What each frame of a list does.
pub fn deeds(switch: Switch, address: u8, list: &[Vec<u8>]) -> Vec<Deed> {
    let deed = |frame: &Vec<u8>| Deed::new(switch, address, frame);
    list.iter().map(deed).collect()
}

/// A write and a frame that reads what it writes, for each of the reading
/// commands, and two writes of one cell for each of the writing ones. On a fresh
/// image each pair shows its order, for what is read is not 0 behind the write.
pub fn clashing(rng: &mut Rng, field: &Field) -> Vec<[Vec<u8>; 2]> {
    let mut pairs = Vec::new();
    for command in WRITING {
        let [mut more, mut less, _] = field.three(rng, command);
        if sum(&more) < sum(&less) {
            swap(&mut more, &mut less);
        }
        let [more, less] = [more, less].map(|data| ask(field.address, command, &data));
        for read in field.reads_of(&more) {
            pairs.push([more.clone(), read]);
        }
        pairs.push([more, less]);
    }
    pairs
}
