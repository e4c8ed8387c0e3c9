//! What desk streams and probe scripts are made of: numbers from a seed,
//! requests, frames, and damage done to them.
//!
//! Frames are written here without the help of `block`, and constants follow
//! the published list of fields rather than the list of reserve bytes, so a
//! slip in the model shows up as a request that is refused without need. For
//! the same reason temperatures are put in order by their place in the rise,
//! and not by the number that their byte stands for.

use crate::items::{sum, Item};

/// The commands served, in rising order.
pub const COMMANDS: [u8; 14] = [50, 51, 53, 54, 55, 59, 60, 61, 62, 63, 64, 76, 77, 78];

/// Those of them that are served sealed as well (document 02, wish 11).
pub const READING: [u8; 8] = [50, 54, 55, 60, 61, 63, 64, 78];
/// Those that are refused 16 when sealed.
pub const WRITING: [u8; 6] = [51, 53, 59, 62, 76, 77];

/// Table numbers at and around the limits.
pub const TABLES: [u8; 10] = [0, 1, 2, 8, 9, 10, 11, 12, 18, 19];
/// Part numbers at and around the limits.
pub const PARTS: [u8; 4] = [0, 1, 11, 12];
/// Temperatures around 80h, the highest, and 81h, the lowest, and around 00h.
pub const TEMPERATURES: [u8; 9] = [0x7E, 0x7F, 0x80, 0x81, 0x82, 0xFE, 0xFF, 0x00, 0x01];

/// The characters on either side of the three ranges of digits.
pub const BESIDE_DIGITS: [u8; 6] = [47, 58, 64, 71, 96, 103];

/// Body bytes of the constants that carry a field, each span with both ends.
pub const FIELDS: [(usize, usize); 9] = [
    (4, 16),
    (21, 22),
    (27, 28),
    (33, 34),
    (39, 42),
    (47, 48),
    (69, 70),
    (73, 74),
    (79, 86),
];

/// Lowest and highest value of each clock byte.
pub const CLOCK: [(u8, u8); 9] = [
    (0, 59),
    (0, 59),
    (0, 23),
    (1, 7),
    (1, 31),
    (1, 12),
    (0, 99),
    (0, 0),
    (0, 0),
];

/// A splitmix64 generator.
pub struct Rng(u64);

impl Rng {
    /// A generator of its own for each stream of a seed.
    pub fn new(seed: u64, stream: u64) -> Self {
        let mut mixer = Rng(seed);
        Rng(mixer.next() ^ stream.wrapping_mul(0xD6E8_FEB8_6659_FD93))
    }

    fn next(&mut self) -> u64 {
        self.0 = self.0.wrapping_add(0x9E37_79B9_7F4A_7C15);
        let z = (self.0 ^ self.0 >> 30).wrapping_mul(0xBF58_476D_1CE4_E5B9);
        let z = (z ^ z >> 27).wrapping_mul(0x94D0_49BB_1331_11EB);
        z ^ z >> 31
    }

    /// A number below the limit, which must not be 0.
    pub fn below(&mut self, limit: usize) -> usize {
        (self.next() % limit as u64) as usize
    }

    pub fn between(&mut self, low: u8, high: u8) -> u8 {
        low + self.below(usize::from(high - low) + 1) as u8
    }

    pub fn byte(&mut self) -> u8 {
        self.next() as u8
    }

    pub fn percent(&mut self, chance: usize) -> bool {
        self.below(100) < chance
    }

    pub fn pick<T: Copy>(&mut self, choices: &[T]) -> T {
        choices[self.below(choices.len())]
    }

    pub fn bytes(&mut self, count: usize) -> Vec<u8> {
        (0..count).map(|_| self.byte()).collect()
    }
}

/// A frame around this body, whose last byte stands for the checksum,
/// whatever it is.
pub fn spelled(body: &[u8]) -> Vec<u8> {
    let mut text = String::from(":");
    for byte in body {
        text.push_str(&format!("{byte:02X}"));
    }
    text.push_str("\r\n");
    text.into_bytes()
}

fn checksum(contents: &[u8]) -> u8 {
    ((256 - sum(contents) % 256) % 256) as u8
}

/// What the checksum would be if each carry were added in again at the low
/// end of the sum.
pub fn end_around(contents: &[u8]) -> u8 {
    let sum = contents.iter().fold(0, |sum, &byte| {
        let sum = sum + u32::from(byte);
        sum % 256 + sum / 256
    });
    ((256 - sum) % 256) as u8
}

/// A frame around these contents, whatever their number.
pub fn frame(contents: &[u8]) -> Vec<u8> {
    spelled(&[contents, &[checksum(contents)]].concat())
}

/// A frame from its address, its command and its data.
pub fn ask(address: u8, command: u8, data: &[u8]) -> Vec<u8> {
    frame(&contents(address, command, data))
}

fn contents(address: u8, command: u8, data: &[u8]) -> Vec<u8> {
    [&[address, command], data].concat()
}

/// The same text with each letter A to F small or capital by chance.
pub fn either_case(rng: &mut Rng, mut text: Vec<u8>) -> Vec<u8> {
    for character in &mut text {
        if matches!(character, b'A'..=b'F') && rng.percent(50) {
            character.make_ascii_lowercase();
        }
    }
    text
}

/// Data of a good command 53.
pub fn constants(rng: &mut Rng, channel: u8) -> Vec<u8> {
    let mut body = [0; 87]; // place 0 unused: body bytes count from 1
    for (first, last) in FIELDS {
        for byte in &mut body[first..=last] {
            *byte = rng.byte();
        }
    }
    body[3] = channel;
    body[7] = rng.between(1, 13);
    body[3..].to_vec()
}

/// Data of a command 59; its rows are mostly random, at times all alike.
pub fn part(rng: &mut Rng, table: u8, part: u8) -> Vec<u8> {
    let rows = match rng.below(8) {
        0 => vec![0; 128],
        1 => vec![255; 128],
        _ => rng.bytes(128),
    };
    [vec![table, part], rows].concat()
}

/// The place of a temperature in their rise, from 0 for 81h over FFh and then
/// 00h to 255 for 80h (document 02, wish 5).
pub fn rung(temperature: u8) -> u8 {
    temperature.wrapping_sub(0x81)
}

/// So many temperatures that rise, with many of those at the limits.
fn rising(rng: &mut Rng, count: u8) -> Vec<u8> {
    let mut temperatures = Vec::new();
    while temperatures.len() < usize::from(count) {
        let temperature = match rng.percent(40) {
            true => rng.pick(&TEMPERATURES),
            false => rng.byte(),
        };
        if !temperatures.contains(&temperature) {
            temperatures.push(temperature);
        }
    }
    temperatures.sort_by_key(|&temperature| rung(temperature));
    temperatures
}

/// Data of a command 62 with a row for each of these temperatures.
fn error_table(rng: &mut Rng, number: u8, temperatures: &[u8]) -> Vec<u8> {
    let mut data = vec![number, temperatures.len() as u8];
    for &temperature in temperatures {
        data.extend([temperature, rng.byte(), rng.byte()]);
    }
    data
}

/// Data of commands 62 for a table: the temperatures at the limits, and 14h
/// from document 01, each alone and with each of them behind it.
pub fn limit_errors(number: u8) -> Vec<Vec<u8>> {
    let limits = [&TEMPERATURES[..], &[0x14]].concat();
    let mut all = Vec::new();
    for &first in &limits {
        all.push(vec![number, 1, first, 0, 5]);
        for &second in &limits {
            all.push(vec![number, 2, first, 0, 5, second, 255, 255]);
        }
    }
    all
}

/// Data of a good command 62 with `count` rows, of which there may be none
/// or more than the rule allows.
pub fn errors(rng: &mut Rng, number: u8, count: u8) -> Vec<u8> {
    let temperatures = rising(rng, count);
    error_table(rng, number, &temperatures)
}

/// Data of a command 62 whose temperatures may stop rising: a limit stands in
/// any row, two rows are alike or have changed places, or all are in order by
/// another meaning.
fn unsettled_errors(rng: &mut Rng, number: u8, count: u8) -> Vec<u8> {
    let mut temperatures = rising(rng, count);
    if let Some(last) = temperatures.len().checked_sub(1) {
        let any = rng.below(last + 1);
        let row = rng.pick(&[0, any, last]);
        let beside = row.checked_sub(1).unwrap_or(last.min(1));
        match rng.below(7) {
            0 => temperatures[row] = rng.pick(&[0x80, 0x81]),
            1 => temperatures[row] = rng.pick(&TEMPERATURES),
            2 => temperatures[row] = temperatures[beside],
            3 => temperatures[beside] = temperatures[row],
            4 => temperatures.swap(row, beside),
            5 => temperatures.sort_by_key(|&temperature| temperature as i8),
            _ => temperatures.sort(),
        }
    }
    error_table(rng, number, &temperatures)
}

/// Data of a command 62 as blocks took it before wish 5: 80h is the lowest
/// and stands first.
pub fn older_errors(rng: &mut Rng, number: u8, count: u8) -> Vec<u8> {
    let mut temperatures = rising(rng, count);
    if !temperatures.contains(&0x80) {
        temperatures.pop();
        temperatures.push(0x80);
    }
    temperatures.sort_by_key(|&temperature| temperature as i8);
    error_table(rng, number, &temperatures)
}

/// Data of a command 62 with any number of rows, three in ten of them surely
/// good.
pub fn any_errors(rng: &mut Rng, number: u8) -> Vec<u8> {
    let count = row_count(rng);
    match rng.percent(30) {
        true => errors(rng, number, count),
        false => unsettled_errors(rng, number, count),
    }
}

/// Data of a good write of an item, of a table this part.
fn item_data(rng: &mut Rng, item: &Item, part_number: u8) -> Vec<u8> {
    match item.commands[0] {
        53 => constants(rng, item.number),
        62 => {
            let count = row_count(rng);
            errors(rng, item.number, count)
        }
        _ => part(rng, item.number, part_number),
    }
}

/// Data of two good writes of one cell of an item. The first has more in its
/// bytes than the second, or as much.
pub fn more_and_less(rng: &mut Rng, item: &Item) -> [Vec<u8>; 2] {
    let part_number = rng.between(1, 11);
    let mut both = [(); 2].map(|()| item_data(rng, item, part_number));
    both.sort_by_key(|data| std::cmp::Reverse(sum(data)));
    both
}

/// How many rows an error table has: as often few or the most as any number.
fn row_count(rng: &mut Rng) -> u8 {
    match rng.below(4) {
        0 => rng.between(1, 3),
        1 => 21,
        _ => rng.between(1, 21),
    }
}

/// Data of a good command 77.
pub fn clock(rng: &mut Rng) -> Vec<u8> {
    CLOCK
        .iter()
        .map(|&(low, high)| rng.between(low, high))
        .collect()
}

fn table_number(rng: &mut Rng) -> u8 {
    match rng.below(8) {
        0 => rng.pick(&TABLES),
        1 => rng.byte(),
        2..=4 => rng.between(1, 8),
        _ => rng.between(11, 18),
    }
}

fn part_number(rng: &mut Rng) -> u8 {
    match rng.below(8) {
        0 => rng.pick(&PARTS),
        _ => rng.between(1, 11),
    }
}

fn channel_number(rng: &mut Rng) -> u8 {
    match rng.below(10) {
        0 => rng.byte(),
        _ => rng.between(0, 8),
    }
}

/// Data for any command: most of it good, some of it at or past a limit.
fn data(rng: &mut Rng, command: u8) -> Vec<u8> {
    let channel = channel_number(rng);
    let mut data = match command {
        50 | 78 => vec![],
        51 => vec![rng.byte()],
        53 => constants(rng, channel),
        59 => {
            let (table, number) = (table_number(rng), part_number(rng));
            part(rng, table, number)
        }
        60 => vec![table_number(rng), part_number(rng)],
        61 => vec![table_number(rng)],
        62 => {
            let count = rng.between(0, 22);
            match rng.percent(25) {
                true => unsettled_errors(rng, channel, count),
                false => errors(rng, channel, count),
            }
        }
        76 => vec![rng.pick(&[0, 255, 0, 255, 1])],
        77 => clock(rng),
        _ => vec![channel],
    };
    if rng.percent(20) && !data.is_empty() {
        let place = rng.below(data.len());
        data[place] = rng.byte();
    }
    match rng.below(40) {
        0 => data.push(rng.byte()),
        1 => data.truncate(data.len().saturating_sub(1)),
        _ => {}
    }
    data
}

/// Data for any of the commands, all of it good. An error table has two rows
/// at the least.
pub fn good_data(rng: &mut Rng, command: u8) -> Vec<u8> {
    let channel = rng.between(0, 7);
    let table = channel + rng.pick(&[1, 11]);
    let part_number = rng.between(1, 11);
    match command {
        50 | 78 => vec![],
        51 => vec![rng.byte()],
        53 => constants(rng, channel),
        54 | 55 => vec![channel],
        59 => part(rng, table, part_number),
        60 => vec![table, part_number],
        61 => vec![table],
        62 => {
            let count = rng.between(2, 21);
            errors(rng, channel + 1, count)
        }
        76 => vec![rng.pick(&[0, 255])],
        77 => clock(rng),
        _ => vec![channel + 1],
    }
}

/// Data for one of the commands with a fault that unsealed is refused 9, then,
/// where the command can have such, with those that are refused 10 and 11.
pub fn faulty_data(rng: &mut Rng, command: u8) -> Vec<Vec<u8>> {
    let good = good_data(rng, command);
    let with = |place: usize, value| {
        let mut data = good.clone();
        data[place] = value;
        data
    };
    let other_length = match good.split_last() {
        Some((_, shorter)) => shorter.to_vec(),
        None => vec![rng.byte()],
    };
    let mut faulty = vec![other_length];
    match command {
        53 => {
            faulty.push(with(0, rng.between(8, 255)));
            faulty.push(with(4, rng.pick(&[0, 14, 255])));
            faulty.push(with(14, rng.between(1, 255))); // body byte 17
        }
        54 | 55 => faulty.push(vec![rng.between(8, 255)]),
        59 | 60 => {
            faulty.push(with(0, rng.pick(&[0, 9, 10, 19, 255])));
            faulty.push(with(1, rng.pick(&[0, 12, 255])));
        }
        61 => faulty.push(vec![rng.pick(&[0, 9, 10, 19, 255])]),
        62 => {
            faulty.push(with(0, rng.pick(&[0, 9, 255])));
            faulty.push(with(1, good[1] + 1));
            faulty.push(with(5, good[2])); // the second row like the first
        }
        63 | 64 => faulty.push(vec![rng.pick(&[0, 9, 255])]),
        76 => faulty.push(vec![rng.between(1, 254)]),
        77 => {
            let place = rng.below(9);
            faulty.push(with(place, CLOCK[place].1 + 1));
        }
        _ => {}
    }
    faulty
}

/// A good frame with a fault for each of the numbers 3 to 6 in turn.
pub fn faulty_frames(rng: &mut Rng, good: &[u8]) -> [Vec<u8>; 4] {
    let last = good.len() - 1;
    let with = |place: usize, character| {
        let mut frame = good.to_vec();
        frame[place] = character;
        frame
    };
    // The command stays as it is, so that the frame is still one of it.
    let no_digit = rng.pick(&[1, 2, last - 3, last - 2]);
    let other = if good[last - 2] == b'0' { b'1' } else { b'0' };
    [
        good[..last].to_vec(),
        with(rng.pick(&[0, last - 1, last]), b'0'),
        with(no_digit, rng.pick(&BESIDE_DIGITS)),
        with(last - 2, other),
    ]
}

/// A few requests that belong together: a write, then reads and signatures
/// of what was written and of what lies beside it.
pub fn session(rng: &mut Rng, address: u8) -> Vec<Vec<u8>> {
    let requests = match rng.below(11) {
        0 => around_constants(rng),
        1 | 2 => around_part(rng),
        3 => around_errors(rng),
        4 => vec![(51, vec![rng.byte()]), (50, vec![])],
        5 => vec![(77, clock(rng)), (78, vec![])],
        _ => {
            let command = match rng.below(12) {
                0 => rng.byte(),
                _ => rng.pick(&COMMANDS),
            };
            vec![(command, data(rng, command))]
        }
    };
    requests
        .into_iter()
        .map(|(command, data)| contents(address, command, &data))
        .collect()
}

type Request = (u8, Vec<u8>);

fn around_constants(rng: &mut Rng) -> Vec<Request> {
    let channel = channel_number(rng);
    let beside = channel.wrapping_add(rng.pick(&[1, 255]));
    vec![
        (53, constants(rng, channel)),
        (54, vec![channel]),
        (55, vec![channel]),
        (54, vec![beside]),
        (55, vec![beside]),
    ]
}

fn around_part(rng: &mut Rng) -> Vec<Request> {
    let (table, number) = (table_number(rng), part_number(rng));
    let beside = table.wrapping_add(rng.pick(&[1, 255, 10, 246]));
    vec![
        (59, part(rng, table, number)),
        (60, vec![table, number]),
        (60, vec![table, number.wrapping_add(rng.pick(&[1, 255]))]),
        (60, vec![beside, number]),
        (61, vec![table]),
        (61, vec![beside]),
    ]
}

fn around_errors(rng: &mut Rng) -> Vec<Request> {
    let number = channel_number(rng);
    let beside = number.wrapping_add(rng.pick(&[1, 255]));
    let long = row_count(rng);
    let short = rng.between(1, long);
    let unsettled = row_count(rng);
    vec![
        (62, errors(rng, number, long)),
        (63, vec![number]),
        (64, vec![number]),
        (62, unsettled_errors(rng, number, unsettled)),
        (63, vec![number]),
        (64, vec![number]),
        (62, errors(rng, number, short)),
        (63, vec![number]),
        (64, vec![number]),
        (63, vec![beside]),
        (64, vec![beside]),
    ]
}

/// Frames of a command with letters in either case: a request, the same to
/// another address, with another length, and with a character that is next
/// to the digits.
pub fn in_either_case(rng: &mut Rng, address: u8, command: u8) -> [Vec<u8>; 4] {
    let data = data(rng, command);
    let mut other_length = data.clone();
    if other_length.pop().is_none() {
        other_length.push(rng.byte());
    }
    let mut no_digit = ask(address, command, &data);
    let place = inside(rng, &no_digit);
    no_digit[place] = rng.pick(&BESIDE_DIGITS);
    [
        ask(address, command, &data),
        ask(!address, command, &data),
        ask(address, command, &other_length),
        no_digit,
    ]
    .map(|frame| either_case(rng, frame))
}

/// A request's frames with other checksums, as `other_sums` has them.
pub fn with_other_sums(rng: &mut Rng, address: u8, command: u8) -> [Vec<u8>; 7] {
    let data = data(rng, command);
    other_sums(rng, &contents(address, command, &data))
}

/// Frames of these contents with other checksums, which for some contents
/// are right all the same, and one in which the total stays.
fn other_sums(rng: &mut Rng, contents: &[u8]) -> [Vec<u8>; 7] {
    let right = checksum(contents);
    let any_other = right.wrapping_add(rng.between(1, 255));
    let with = |checksum| spelled(&[contents, &[checksum]].concat());
    [
        with(right.wrapping_add(1)),
        with(right.wrapping_sub(1)),
        with(checksum(&contents[1..])),
        with(end_around(contents)),
        with(right.wrapping_neg()), // the sum itself
        with(any_other),
        same_total(rng, [contents, &[right]].concat()),
    ]
}

/// Two bytes of the body are changed, one by what the other loses.
fn same_total(rng: &mut Rng, mut body: Vec<u8>) -> Vec<u8> {
    let change = rng.between(1, 255);
    let up = rng.below(body.len());
    let down = (up + 1 + rng.below(body.len() - 1)) % body.len();
    body[up] = body[up].wrapping_add(change);
    body[down] = body[down].wrapping_sub(change);
    spelled(&body)
}

/// The frame of these contents, about one in six with a fault of its own,
/// and one in two with letters in either case.
pub fn piece(rng: &mut Rng, contents: &[u8]) -> Vec<u8> {
    let frame = match rng.below(35) {
        0 => {
            let mut other = contents.to_vec();
            other[0] = rng.byte();
            frame(&other)
        }
        1..=4 => damage(rng, frame(contents)),
        5 => {
            let frames = other_sums(rng, contents);
            frames[rng.below(frames.len())].clone()
        }
        _ => frame(contents),
    };
    match rng.percent(50) {
        true => either_case(rng, frame),
        false => frame,
    }
}

/// A place between the ends of a frame.
fn inside(rng: &mut Rng, frame: &[u8]) -> usize {
    1 + rng.below(frame.len() - 3)
}

/// One fault done to a good frame.
fn damage(rng: &mut Rng, mut frame: Vec<u8>) -> Vec<u8> {
    let length = frame.len();
    let inside = inside(rng, &frame);
    match rng.below(12) {
        0 => frame[inside] = rng.byte(),
        1 => frame[inside] = rng.between(58, 64),
        2 => frame[inside] = rng.between(71, 96),
        3 => frame[inside] = rng.pick(&BESIDE_DIGITS),
        4 => frame[inside] = rng.pick(b"0123456789ABCDEFabcdef"),
        5 => frame[length - 3] = rng.pick(b"0123456789ABCDEFabcdef"),
        6 => drop(frame.remove(inside)),
        7 => frame.insert(inside, b'0'),
        8 => drop(frame.drain(inside..length - 2)),
        9 => frame[0] = rng.byte(),
        10 => frame[length - 2] = rng.byte(),
        _ => drop(frame.remove(length - 1 - rng.below(2))),
    }
    frame
}
