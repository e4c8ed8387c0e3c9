//! The rules of the block: frames, the image, and the fourteen commands.
//!
//! Five things are public: `serve`, `take_apart`, `build`, `fresh` and
//! `held_parts`, and beside them the two moves of wish 8 and the volume at a
//! level of wish 3. Each takes every input. What is refused changes no buffer,
//! so every check of a command stands before its first write.

mod moves;
mod quantity;

pub use self::moves::{move_down, move_up};
pub use self::quantity::volume_at;

use std::ops::{Range, RangeInclusive};

use super::digits;

pub const IMAGE_BYTES: usize = 23_817;

const FRAME_MIN: usize = 9;
const FRAME_MAX: usize = 269;
const BODY_MAX: usize = 133;
const CONTENTS_MIN: usize = 2;
const CONTENTS_MAX: usize = BODY_MAX - 1;

// Places in the image.
const ADDRESS: usize = 5;
const MASK: usize = 6;
const MODE: usize = 7;
const CLOCK: Range<usize> = 8..17;
const HELD: usize = 17;
const CONSTANTS: usize = 49;
const ERRORS: usize = 713;
const TABLES: usize = 1225;
const SIGNATURES: usize = 23_753;

/// A version of the image: its mark and number, as they stand at the start, and
/// its length.
struct Version {
    head: [u8; 5],
    bytes: usize,
}

/// Document 01's, without signatures. Only the moves know it (document 02, wish
/// 8).
const FIRST: Version = Version {
    head: *b"IZK\x00\x01",
    bytes: SIGNATURES,
};
/// The version of today, which is served (document 02, wish 7).
const SECOND: Version = Version {
    head: *b"IZK\x00\x02",
    bytes: IMAGE_BYTES,
};

// Document 02, wish 7: the signatures of the tables come first. So many stand
// before those of the constants, and so many before those of the error tables.
const BEFORE_CONSTANTS: usize = 16;
const BEFORE_ERRORS: usize = 24;

// Sizes of the items kept there.
const CONSTANTS_BYTES: usize = 83;
const ERRORS_BYTES: usize = 64;
const ROW_BYTES: usize = 3;
const ROWS_MAX: u8 = 21;
const TABLE_BYTES: usize = 1408;
const PART_BYTES: usize = 128;
const PARTS: u8 = 11;
const ALL_PARTS: u16 = 2047;

/// Body byte, counted from 1 at the address, at which the constants begin.
const FIRST_CONSTANT: usize = 4;
/// Body byte that names the gas composition.
const GAS: usize = 7;
/// Body bytes kept in reserve, each span with both its ends.
const RESERVE: [(usize, usize); 8] = [
    (17, 20),
    (23, 26),
    (29, 32),
    (35, 38),
    (43, 46),
    (49, 68),
    (71, 72),
    (75, 78),
];
/// Lowest and highest value of each clock byte, seconds first.
const CLOCK_LIMITS: [RangeInclusive<u8>; 9] = [
    0..=59,
    0..=59,
    0..=23,
    1..=7,
    1..=31,
    1..=12,
    0..=99,
    0..=0,
    0..=0,
];

/// Why a call was refused; the value of each is the number reported.
#[derive(Clone, Copy, Debug, PartialEq, Eq)]
pub enum Refusal {
    Image = 1,
    Output = 2,
    Length = 3,
    Ends = 4,
    Digit = 5,
    Checksum = 6,
    Address = 7,
    Command = 8,
    BodyLength = 9,
    Item = 10,
    Value = 11,
    Incomplete = 12,
    Falling = 13,
    Level = 14,
    Sealed = 16,
}

impl Refusal {
    pub fn number(self) -> u8 {
        self as u8
    }
}

/// Document 02, wish 11: the position of the key switch. It comes with each
/// call to serve and is stored nowhere.
#[derive(Clone, Copy, Debug, PartialEq, Eq)]
pub enum Switch {
    Unsealed,
    Sealed,
}

impl Switch {
    /// Document 02, wish 9: the panel's host passes the switch as a plain number of
    /// 64 bits. 0 is unsealed and anything else sealed.
    pub fn by_number(number: u64) -> Self {
        match number {
            0 => Switch::Unsealed,
            _ => Switch::Sealed,
        }
    }
}

/// Serves one frame on the image and gives the length of the reply frame.
pub fn serve(
    switch: Switch,
    image: &mut [u8],
    frame: &[u8],
    output: &mut [u8],
) -> Result<usize, Refusal> {
    if !usable(image) {
        return Err(Refusal::Image);
    }
    if output.len() < FRAME_MAX {
        return Err(Refusal::Output);
    }
    let mut body = [0; BODY_MAX];
    let contents = decode(frame, &mut body)?;
    let (address, command) = (contents[0], contents[1]);
    if address != image[ADDRESS] {
        return Err(Refusal::Address);
    }
    if switch == Switch::Sealed && writes(command) {
        return Err(Refusal::Sealed);
    }
    let mut reply = Reply::new(address, command);
    obey(image, command, &contents[2..], &mut reply)?;
    Ok(encode(reply.contents(), output))
}

/// Writes the frame's contents, checksum left off, and gives their length.
pub fn take_apart(frame: &[u8], output: &mut [u8]) -> Result<usize, Refusal> {
    if output.len() < CONTENTS_MAX {
        return Err(Refusal::Output);
    }
    let mut body = [0; BODY_MAX];
    let contents = decode(frame, &mut body)?;
    output[..contents.len()].copy_from_slice(contents);
    Ok(contents.len())
}

/// Writes the frame that carries these contents and gives its length.
/// Here a higher number (3) goes before a lower one (2).
pub fn build(contents: &[u8], output: &mut [u8]) -> Result<usize, Refusal> {
    if !(CONTENTS_MIN..=CONTENTS_MAX).contains(&contents.len()) {
        return Err(Refusal::Length);
    }
    if output.len() < 2 * contents.len() + 5 {
        return Err(Refusal::Output);
    }
    Ok(encode(contents, output))
}

/// Lays out an image on which nothing has been written yet.
pub fn fresh(image: &mut [u8], address: u8) -> Result<(), Refusal> {
    if image.len() != IMAGE_BYTES {
        return Err(Refusal::Image);
    }
    if address == 0 {
        return Err(Refusal::Value);
    }
    image.fill(0);
    image[..SECOND.head.len()].copy_from_slice(&SECOND.head);
    image[ADDRESS] = address;
    Ok(())
}

/// Number of parts held of a table, and the lowest part not held (0: none). A
/// table's number may be 64 bits wide, and none of them is dropped (document 02,
/// wish 9).
pub fn held_parts(image: &[u8], table: u64) -> Result<(u32, u32), Refusal> {
    if !usable(image) {
        return Err(Refusal::Image);
    }
    let word = held_word(image, table_index(table)?);
    let missing = match word {
        ALL_PARTS => 0,
        _ => word.trailing_ones() + 1,
    };
    Ok((word.count_ones(), missing))
}

fn usable(image: &[u8]) -> bool {
    usable_in(&SECOND, image)
}

/// Only what later steps rely on is judged: length, head, counts and the words
/// of parts held. A signature may be anything; it is answered as it stands.
fn usable_in(version: &Version, image: &[u8]) -> bool {
    image.len() == version.bytes
        && image.starts_with(&version.head)
        && image[ADDRESS] != 0
        && (0..16).all(|table| held_word(image, table) <= ALL_PARTS)
        && (0..8).all(|table| image[ERRORS + table * ERRORS_BYTES] <= ROWS_MAX)
}

/// Fills `body` from the frame; what it gives back leaves the checksum out.
fn decode<'a>(frame: &[u8], body: &'a mut [u8; BODY_MAX]) -> Result<&'a [u8], Refusal> {
    if frame.len() < FRAME_MIN || frame.len() > FRAME_MAX || frame.len().is_multiple_of(2) {
        return Err(Refusal::Length);
    }
    let characters = frame
        .strip_prefix(b":")
        .and_then(|rest| rest.strip_suffix(b"\r\n"))
        .ok_or(Refusal::Ends)?;
    // Document 02, wish 4: of the whole body, checksum included, 0 must be left.
    let total = digits::read(characters, body).ok_or(Refusal::Digit)?;
    if total != 0 {
        return Err(Refusal::Checksum);
    }
    Ok(&body[..characters.len() / 2 - 1])
}

/// Writes a frame; the caller has made sure that the output has room.
/// Wish 2 leaves writing with capitals, and wish 4 leaves the checksum as
/// document 01 has it: the sum inverted, plus 1, kept to 8 bits.
fn encode(contents: &[u8], output: &mut [u8]) -> usize {
    const DIGITS: [u8; 16] = *b"0123456789ABCDEF";
    let sum = contents
        .iter()
        .fold(0u8, |sum, &byte| sum.wrapping_add(byte));
    let checksum = [(!sum).wrapping_add(1)];
    let end = 1 + 2 * (contents.len() + 1);
    output[0] = b':';
    let pairs = output[1..end].chunks_exact_mut(2);
    for (pair, &byte) in pairs.zip(contents.iter().chain(&checksum)) {
        pair[0] = DIGITS[usize::from(byte >> 4)];
        pair[1] = DIGITS[usize::from(byte & 15)];
    }
    output[end..end + 2].copy_from_slice(b"\r\n");
    end + 2
}

/// Contents of a reply as they grow.
struct Reply {
    bytes: [u8; CONTENTS_MAX],
    length: usize,
}

impl Reply {
    fn new(address: u8, command: u8) -> Self {
        let mut reply = Reply {
            bytes: [0; CONTENTS_MAX],
            length: 0,
        };
        reply.put(&[address, command]);
        reply
    }

    fn put(&mut self, bytes: &[u8]) {
        let end = self.length + bytes.len();
        self.bytes[self.length..end].copy_from_slice(bytes);
        self.length = end;
    }

    fn contents(&self) -> &[u8] {
        &self.bytes[..self.length]
    }
}

/// Document 02, wish 11: the commands that a sealed block refuses 16. That
/// comes after 8, which no command here can get, and before 9, so neither their
/// length nor their values have been looked at.
fn writes(command: u8) -> bool {
    matches!(command, 51 | 53 | 59 | 62 | 76 | 77)
}

/// Carries out one command; `data` is what stands between it and the checksum.
fn obey(image: &mut [u8], command: u8, data: &[u8], reply: &mut Reply) -> Result<(), Refusal> {
    match command {
        50 => read_mask(image, data, reply),
        51 => write_mask(image, data, reply),
        53 => write_constants(image, data),
        54 => read_constants(image, data, reply),
        55 => sign(image, data, reply, constants_signature),
        59 => write_part(image, data, reply),
        60 => read_part(image, data, reply),
        61 => sign(image, data, reply, table_signature),
        62 => write_errors(image, data, reply),
        63 => read_errors(image, data, reply),
        64 => sign(image, data, reply, errors_signature),
        76 => write_mode(image, data, reply),
        77 => write_clock(image, data),
        78 => read_clock(image, data, reply),
        _ => Err(Refusal::Command),
    }
}

/// The data as an array, if it has just the command's length.
fn exactly<const N: usize>(data: &[u8]) -> Result<&[u8; N], Refusal> {
    data.try_into().map_err(|_| Refusal::BodyLength)
}

fn read_mask(image: &[u8], data: &[u8], reply: &mut Reply) -> Result<(), Refusal> {
    let [] = exactly(data)?;
    reply.put(&[image[MASK]]);
    Ok(())
}

fn write_mask(image: &mut [u8], data: &[u8], reply: &mut Reply) -> Result<(), Refusal> {
    let &[mask] = exactly(data)?;
    image[MASK] = mask;
    reply.put(&[mask]);
    Ok(())
}

fn write_mode(image: &mut [u8], data: &[u8], reply: &mut Reply) -> Result<(), Refusal> {
    let &[mode] = exactly(data)?;
    if mode != 0x00 && mode != 0xFF {
        return Err(Refusal::Value);
    }
    image[MODE] = mode;
    reply.put(&[mode]);
    Ok(())
}

fn write_clock(image: &mut [u8], data: &[u8]) -> Result<(), Refusal> {
    let clock: &[u8; 9] = exactly(data)?;
    let mut limits = CLOCK_LIMITS.iter().zip(clock);
    if !limits.all(|(limit, byte)| limit.contains(byte)) {
        return Err(Refusal::Value);
    }
    image[CLOCK].copy_from_slice(clock);
    Ok(())
}

fn read_clock(image: &[u8], data: &[u8], reply: &mut Reply) -> Result<(), Refusal> {
    let [] = exactly(data)?;
    reply.put(&image[CLOCK]);
    Ok(())
}

fn write_constants(image: &mut [u8], data: &[u8]) -> Result<(), Refusal> {
    let [channel, constants @ ..] = exactly::<{ 1 + CONSTANTS_BYTES }>(data)?;
    let place = constants_place(*channel)?;
    let gas = constants[GAS - FIRST_CONSTANT];
    let reserve_clear = RESERVE.iter().all(|&(first, last)| {
        constants[first - FIRST_CONSTANT..=last - FIRST_CONSTANT]
            .iter()
            .all(|&byte| byte == 0)
    });
    if !(1..=13).contains(&gas) || !reserve_clear {
        return Err(Refusal::Value);
    }
    let signature = constants_signature(*channel)?;
    replace(image, place, constants, signature);
    Ok(())
}

fn read_constants(image: &[u8], data: &[u8], reply: &mut Reply) -> Result<(), Refusal> {
    let &[channel] = exactly(data)?;
    let place = constants_place(channel)?;
    reply.put(&[channel]);
    reply.put(&image[place]);
    Ok(())
}

fn write_part(image: &mut [u8], data: &[u8], reply: &mut Reply) -> Result<(), Refusal> {
    let [table, part, rows @ ..] = exactly::<{ 2 + PART_BYTES }>(data)?;
    let index = table_index(u64::from(*table))?;
    let place = part_place(index, *part)?;
    replace(image, place, rows, table_signature(*table)?);
    let held = held_word(image, index) | 1 << (part - 1);
    put_word(image, held_place(index), held);
    reply.put(&[*table, *part]);
    Ok(())
}

fn read_part(image: &[u8], data: &[u8], reply: &mut Reply) -> Result<(), Refusal> {
    let &[table, part] = exactly(data)?;
    let place = part_place(table_index(u64::from(table))?, part)?;
    reply.put(&[table, part]);
    reply.put(&image[place]);
    Ok(())
}

fn write_errors(image: &mut [u8], data: &[u8], reply: &mut Reply) -> Result<(), Refusal> {
    let [number, count, rows @ ..] = data else {
        return Err(Refusal::BodyLength);
    };
    let k = rows.len() / ROW_BYTES;
    if rows.len() % ROW_BYTES != 0 || k < 1 || k > usize::from(ROWS_MAX) {
        return Err(Refusal::BodyLength);
    }
    let place = errors_place(*number)?;
    if usize::from(*count) != k {
        return Err(Refusal::Item);
    }
    let temperatures = rows.chunks_exact(ROW_BYTES).map(|row| degrees(row[0]));
    if !temperatures.is_sorted_by(|earlier, later| earlier < later) {
        return Err(Refusal::Value);
    }
    // A longer table may have stood here. None of its rows may stay behind, so
    // the zeros come with the others and count among what came.
    let mut table = [0; ERRORS_BYTES];
    table[0] = *count;
    table[1..=rows.len()].copy_from_slice(rows);
    replace(image, place, &table, errors_signature(*number)?);
    reply.put(&[*number]);
    Ok(())
}

/// Document 02, wish 5: a temperature byte up to 128 is itself, a larger one
/// is itself less 256. So they go from -127 to +128.
fn degrees(temperature: u8) -> i16 {
    match temperature {
        0..=128 => i16::from(temperature),
        129..=255 => i16::from(temperature) - 256,
    }
}

fn read_errors(image: &[u8], data: &[u8], reply: &mut Reply) -> Result<(), Refusal> {
    let &[number] = exactly(data)?;
    let table = &image[errors_place(number)?];
    // A usable image has no count above 21, so the rows are all there.
    let rows_end = 1 + usize::from(table[0]) * ROW_BYTES;
    reply.put(&[number]);
    reply.put(&table[..rows_end]);
    Ok(())
}

/// Answers 55, 61 and 64 with the stored signature, be it true or false
/// (document 02, wish 7). No byte of the item is looked at.
fn sign(
    image: &[u8],
    data: &[u8],
    reply: &mut Reply,
    signature: fn(u8) -> Result<Range<usize>, Refusal>,
) -> Result<(), Refusal> {
    let &[item] = exactly(data)?;
    let place = signature(item)?;
    reply.put(&[item]);
    reply.put(&image[place]);
    Ok(())
}

/// Puts bytes in the place of others and amends their item's signature by what
/// left and what came, remainder by 65,536 (document 02, wish 7). The rest of
/// the item is not looked at, so a signature that was false stays false by the
/// same amount.
fn replace(image: &mut [u8], place: Range<usize>, bytes: &[u8], signature: Range<usize>) {
    let left = sum(&image[place.clone()]);
    let amended = word(image, signature.clone())
        .wrapping_sub(left)
        .wrapping_add(sum(bytes));
    image[place].copy_from_slice(bytes);
    put_word(image, signature, amended);
}

/// For at most 128 bytes, so it stays below 65,536.
fn sum(bytes: &[u8]) -> u16 {
    bytes.iter().map(|&byte| u16::from(byte)).sum()
}

fn constants_place(channel: u8) -> Result<Range<usize>, Refusal> {
    Ok(span(CONSTANTS, channel_index(channel)?, CONSTANTS_BYTES))
}

fn errors_place(number: u8) -> Result<Range<usize>, Refusal> {
    Ok(span(ERRORS, errors_index(number)?, ERRORS_BYTES))
}

fn table_signature(table: u8) -> Result<Range<usize>, Refusal> {
    let index = table_index(u64::from(table))?;
    Ok(span(SIGNATURES, index, 2))
}

fn constants_signature(channel: u8) -> Result<Range<usize>, Refusal> {
    let index = channel_index(channel)?;
    Ok(span(SIGNATURES, BEFORE_CONSTANTS + index, 2))
}

fn errors_signature(number: u8) -> Result<Range<usize>, Refusal> {
    let index = errors_index(number)?;
    Ok(span(SIGNATURES, BEFORE_ERRORS + index, 2))
}

/// Constants count their channels from 0.
fn channel_index(channel: u8) -> Result<usize, Refusal> {
    match channel {
        0..=7 => Ok(usize::from(channel)),
        _ => Err(Refusal::Item),
    }
}

/// Error tables count from 1.
fn errors_index(number: u8) -> Result<usize, Refusal> {
    match number {
        1..=8 => Ok(usize::from(number - 1)),
        _ => Err(Refusal::Item),
    }
}

/// Main tables take the places 0 to 7, additional ones 8 to 15.
fn table_index(table: u64) -> Result<usize, Refusal> {
    match table {
        1..=8 => Ok(table as usize - 1),
        11..=18 => Ok(table as usize - 3),
        _ => Err(Refusal::Item),
    }
}

fn part_place(index: usize, part: u8) -> Result<Range<usize>, Refusal> {
    match part {
        1..=PARTS => {
            let table = TABLES + index * TABLE_BYTES;
            Ok(span(table, usize::from(part - 1), PART_BYTES))
        }
        _ => Err(Refusal::Item),
    }
}

fn held_place(index: usize) -> Range<usize> {
    span(HELD, index, 2)
}

fn held_word(image: &[u8], index: usize) -> u16 {
    word(image, held_place(index))
}

/// The word at a place of two bytes, high byte first.
fn word(image: &[u8], place: Range<usize>) -> u16 {
    u16::from_be_bytes([image[place.start], image[place.start + 1]])
}

fn put_word(image: &mut [u8], place: Range<usize>, word: u16) {
    image[place].copy_from_slice(&word.to_be_bytes());
}

fn span(start: usize, index: usize, bytes: usize) -> Range<usize> {
    let first = start + index * bytes;
    first..first + bytes
}
