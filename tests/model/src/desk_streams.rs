//! Streams for the desk program: first those with a purpose of their own,
//! then the fixed calls, then a sweep of body lengths for each command, then
//! lists in two orders, then sessions by chance.

mod order;

use crate::desk::INPUT_MAX;
use crate::fixed;
use crate::items::ITEMS;
use crate::streams::{
    any_errors, ask, clock, constants, either_case, errors, faulty_data, frame, good_data,
    in_either_case, limit_errors, more_and_less, part, piece, session, with_other_sums, Rng, CLOCK,
    COMMANDS, PARTS, TABLES,
};

type Case = (&'static str, fn(&mut Rng) -> Vec<u8>);

const CASES: [Case; 40] = [
    ("rows of the paper", paper_rows),
    ("empty", |_| Vec::new()),
    ("65,536 bytes", |rng| filled(rng, INPUT_MAX)),
    ("65,537 bytes", |rng| filled(rng, INPUT_MAX + 1)),
    ("200,000 bytes", |rng| filled(rng, 200_000)),
    ("one line feed", |_| b"\n".to_vec()),
    ("65,536 line feeds", |_| vec![b'\n'; INPUT_MAX]),
    ("one piece of 65,536 bytes", |_| vec![b'0'; INPUT_MAX]),
    ("last piece of even length", |_| {
        b":0132CD\r\n:0132CD\r".to_vec()
    }),
    ("last piece of odd length", |_| {
        b":0132CD\r\n:0132CD\rA".to_vec()
    }),
    ("bytes above 127", high_bytes),
    ("longest replies", |_| {
        ask(1, 60, &[1, 1]).repeat(INPUT_MAX / 13)
    }),
    ("every command number", every_command),
    ("channels", channels),
    ("constants at the limits", constants_limits),
    ("reserve bytes", reserve_bytes),
    ("gas composition", gas_composition),
    ("table and part numbers", table_numbers),
    ("table writes at the limits", table_writes),
    ("every part of every table", every_part),
    ("table 2 against 12", tables_apart),
    ("signature past 65,535", large_signature),
    ("part written twice", part_twice),
    ("error table numbers", error_numbers),
    ("error table counts", error_counts),
    ("error table temperatures", temperatures),
    ("shorter error table", shorter_errors),
    ("error tables and constants side by side", side_by_side),
    ("clock limits", clock_limits),
    ("active mode", |_| sweep(|mode| ask(1, 76, &[mode]))),
    ("masks", |_| {
        sweep(|mask| [ask(1, 51, &[mask]), ask(1, 50, &[])].concat())
    }),
    ("addresses", |_| sweep(|address| ask(address, 50, &[]))),
    ("one character of a read", |_| {
        one_changed(&ask(1, 54, &[7]))
    }),
    ("one character of a write", |_| {
        one_changed(&ask(1, 51, &[15]))
    }),
    ("frame lengths", frame_lengths),
    ("ends", ends),
    ("letters in either case", letters),
    ("other checksums", other_checksums),
    ("signatures", signatures),
    ("signatures of full tables", full_tables),
];

/// How many streams have a purpose of their own.
pub fn purposeful() -> usize {
    CASES.len() + fixed::streams().len() + COMMANDS.len() + order::STREAMS
}

/// Whether the stream of that number is one of fixed calls.
pub fn is_fixed(number: usize) -> bool {
    (CASES.len()..CASES.len() + fixed::streams().len()).contains(&number)
}

/// A stream and what it is for.
pub fn stream(seed: u64, number: usize) -> (String, Vec<u8>) {
    let mut rng = Rng::new(seed, number as u64);
    if let Some((name, make)) = CASES.get(number) {
        return (name.to_string(), make(&mut rng));
    }
    let (number, mut streams) = (number - CASES.len(), fixed::streams());
    if number < streams.len() {
        let (name, stream) = streams.swap_remove(number);
        return (name.to_string(), stream);
    }
    let number = number - streams.len();
    if let Some(&command) = COMMANDS.get(number) {
        let name = format!("body lengths of command {command}");
        return (name, body_lengths(&mut rng, command));
    }
    order::stream(seed, number - COMMANDS.len()).unwrap_or_else(|| {
        let size = rng.pick(&[500, 4_000, 20_000, 60_000]);
        let size = 1 + rng.below(size);
        ("sessions by chance".to_string(), sessions(&mut rng, size))
    })
}

/// Sessions of at least this many bytes.
fn sessions(rng: &mut Rng, size: usize) -> Vec<u8> {
    let mut stream = Vec::new();
    while stream.len() < size {
        for contents in session(rng, 1) {
            stream.extend(piece(rng, &contents));
        }
    }
    stream
}

/// Sessions cut to just this many bytes.
fn filled(rng: &mut Rng, size: usize) -> Vec<u8> {
    let mut stream = sessions(rng, size);
    stream.truncate(size);
    stream
}

/// What `make` gives for each of the 256 bytes, in turn.
fn sweep(make: fn(u8) -> Vec<u8>) -> Vec<u8> {
    (0..=255).flat_map(make).collect()
}

fn paper_rows(_: &mut Rng) -> Vec<u8> {
    let rows = [
        ":0132CD",
        ":01330FBD",
        ":0132CE",
        ":0132cD",
        ":0232CC",
        ":0153AC",
        ":013608C1",
        ":013C0901B9",
        ":013D01C1",
        ":013E0101140005A6",
        ":013F01BF",
        ":014001BE",
        ":014CFFB4",
        ":014C01B2",
        ":013607C2",
        ":013C0B0CAC",
        ":CE3200",
    ];
    rows.map(|row| format!("{row}\r\n")).concat().into_bytes()
}

fn high_bytes(rng: &mut Rng) -> Vec<u8> {
    let good = ask(1, 51, &[15]);
    let mut stream = Vec::new();
    for place in 0..good.len() {
        let mut bad = good.clone();
        bad[place] |= 128;
        stream.extend(bad);
        stream.push(b'\n');
    }
    for _ in 0..200 {
        let length = rng.below(280);
        stream.extend((0..length).map(|_| rng.byte() | 128));
        stream.extend(b"\r\n");
    }
    stream
}

/// Each command number with the three shortest bodies.
fn every_command(_: &mut Rng) -> Vec<u8> {
    sweep(|command| {
        let data = [1, 1];
        (0..=2)
            .flat_map(|count| ask(1, command, &data[..count]))
            .collect()
    })
}

fn channels(rng: &mut Rng) -> Vec<u8> {
    let mut stream = Vec::new();
    for channel in 0..8 {
        stream.extend(ask(1, 53, &constants(rng, channel)));
    }
    stream.extend(sweep(|channel| {
        [ask(1, 54, &[channel]), ask(1, 55, &[channel])].concat()
    }));
    stream
}

/// Writes at the limits, each followed by a look at all eight channels.
fn constants_limits(rng: &mut Rng) -> Vec<u8> {
    let mut stream = Vec::new();
    for channel in [0, 7, 8, 1, 6, 9, 128, 255] {
        stream.extend(ask(1, 53, &constants(rng, channel)));
        for look in 0..8 {
            stream.extend(ask(1, 54, &[look]));
            stream.extend(ask(1, 55, &[look]));
        }
    }
    stream
}

/// Each byte of the constants changed in turn, reserve or not.
fn reserve_bytes(rng: &mut Rng) -> Vec<u8> {
    let mut stream = Vec::new();
    for place in 1..=83 {
        for change in [1, 128] {
            let mut data = constants(rng, 3);
            data[place] ^= change;
            stream.extend(ask(1, 53, &data));
            stream.extend(ask(1, 55, &[3]));
        }
    }
    stream.extend(ask(1, 54, &[3]));
    stream
}

fn gas_composition(rng: &mut Rng) -> Vec<u8> {
    let mut stream = Vec::new();
    for gas in (0..=16).chain([127, 128, 129, 141, 254, 255]) {
        let mut data = constants(rng, 0);
        data[4] = gas;
        stream.extend(ask(1, 53, &data));
        stream.extend(ask(1, 54, &[0]));
    }
    stream
}

fn table_numbers(rng: &mut Rng) -> Vec<u8> {
    let mut stream = Vec::new();
    for (table, number) in [(2, 1), (12, 11), (8, 11), (11, 1), (18, 11)] {
        stream.extend(ask(1, 59, &part(rng, table, number)));
    }
    stream.extend(sweep(|table| ask(1, 61, &[table])));
    stream.extend(sweep(|part| ask(1, 60, &[8, part])));
    stream.extend(sweep(|table| ask(1, 60, &[table, 11])));
    for table in 0..=20 {
        stream.extend((0..=13).flat_map(|part| ask(1, 60, &[table, part])));
    }
    stream
}

fn table_writes(rng: &mut Rng) -> Vec<u8> {
    let mut stream = Vec::new();
    for table in TABLES {
        for number in PARTS {
            stream.extend(ask(1, 59, &part(rng, table, number)));
            stream.extend(ask(1, 60, &[table, number]));
            stream.extend(ask(1, 61, &[table]));
        }
    }
    for table in TABLES {
        stream.extend(PARTS.iter().flat_map(|&part| ask(1, 60, &[table, part])));
        stream.extend(ask(1, 61, &[table]));
    }
    stream
}

fn every_part(rng: &mut Rng) -> Vec<u8> {
    let mut stream = Vec::new();
    for table in (1..=8).chain(11..=18) {
        for number in 1..=11 {
            stream.extend(ask(1, 59, &part(rng, table, number)));
        }
    }
    for table in (1..=8).chain(11..=18) {
        stream.extend((1..=11).flat_map(|part| ask(1, 60, &[table, part])));
        stream.extend(ask(1, 61, &[table]));
    }
    stream
}

fn tables_apart(rng: &mut Rng) -> Vec<u8> {
    let mut stream = Vec::new();
    for written in [2, 12, 2, 12] {
        for number in [1, 5, 11] {
            stream.extend(ask(1, 59, &part(rng, written, number)));
            for read in [1, 2, 3, 11, 12, 13] {
                stream.extend(ask(1, 60, &[read, number]));
                stream.extend(ask(1, 61, &[read]));
            }
        }
    }
    stream
}

fn large_signature(_: &mut Rng) -> Vec<u8> {
    let mut stream = Vec::new();
    for table in [1, 18] {
        for number in 1..=11 {
            let data = [vec![table, number], vec![255; 128]].concat();
            stream.extend(ask(1, 59, &data));
            stream.extend(ask(1, 61, &[table]));
        }
    }
    stream
}

fn part_twice(rng: &mut Rng) -> Vec<u8> {
    let mut stream = Vec::new();
    for number in [1, 1, 11, 11, 2, 1, 11] {
        stream.extend(ask(1, 59, &part(rng, 12, number)));
        stream.extend((1..=11).flat_map(|part| ask(1, 60, &[12, part])));
        stream.extend(ask(1, 61, &[12]));
    }
    stream
}

fn error_numbers(rng: &mut Rng) -> Vec<u8> {
    let mut stream = Vec::new();
    for number in [0, 1, 8, 9, 128, 129, 255] {
        let count = rng.between(1, 21);
        stream.extend(ask(1, 62, &errors(rng, number, count)));
        for look in 0..=9 {
            stream.extend(ask(1, 63, &[look]));
            stream.extend(ask(1, 64, &[look]));
        }
    }
    stream.extend(sweep(|number| {
        [ask(1, 63, &[number]), ask(1, 64, &[number])].concat()
    }));
    stream
}

/// No rows to 22 rows, with the right count byte and with wrong ones.
fn error_counts(rng: &mut Rng) -> Vec<u8> {
    let mut stream = Vec::new();
    for rows in 0..=22u8 {
        for count in [rows, rows.wrapping_sub(1), rows + 1, 0, 1, 21, 22, 255] {
            let mut data = errors(rng, 4, rows);
            data[1] = count;
            stream.extend(ask(1, 62, &data));
            stream.extend(ask(1, 63, &[4]));
        }
    }
    stream
}

/// Document 01's rows and wish 5; the longest draw stays below 65,536 bytes.
fn temperatures(rng: &mut Rng) -> Vec<u8> {
    let mut stream = Vec::new();
    for data in limit_errors(1) {
        stream.extend(ask(1, 62, &data));
        stream.extend(ask(1, 64, &[1]));
    }
    // A stop in the rise at each place of a full table.
    for row in 1..21 {
        let mut data = errors(rng, 8, 21);
        data[2 + 3 * row] = data[2 + 3 * (row - 1)];
        stream.extend(ask(1, 62, &data));
        stream.extend(ask(1, 63, &[8]));
    }
    for _ in 0..350 {
        stream.extend(ask(1, 62, &any_errors(rng, 3)));
        stream.extend(ask(1, 63, &[3]));
    }
    stream
}

fn shorter_errors(rng: &mut Rng) -> Vec<u8> {
    let mut stream = Vec::new();
    for count in [21, 20, 21, 1, 2, 21, 7, 6, 1] {
        stream.extend(ask(1, 62, &errors(rng, 5, count)));
        for number in 4..=6 {
            stream.extend(ask(1, 63, &[number]));
            stream.extend(ask(1, 64, &[number]));
        }
    }
    stream
}

fn side_by_side(rng: &mut Rng) -> Vec<u8> {
    let mut stream = Vec::new();
    for item in [0, 1, 7, 8, 3, 4] {
        stream.extend(ask(1, 62, &errors(rng, item, 21)));
        stream.extend(ask(1, 53, &constants(rng, item)));
        for look in 0..=8 {
            for command in [54, 55, 63, 64] {
                stream.extend(ask(1, command, &[look]));
            }
        }
        stream.extend(ask(1, 61, &[1])); // the table after the last error table
        stream.extend(ask(1, 78, &[]));
    }
    stream
}

/// Each clock byte at its limits and just past them.
fn clock_limits(rng: &mut Rng) -> Vec<u8> {
    let mut stream = ask(1, 78, &[]);
    for (place, (low, high)) in CLOCK.into_iter().enumerate() {
        for value in [low.wrapping_sub(1), low, high, high + 1, 128, 255] {
            let mut data = clock(rng);
            data[place] = value;
            stream.extend(ask(1, 77, &data));
            stream.extend(ask(1, 78, &[]));
        }
    }
    // The 31st of February passes: no month is asked for its length.
    stream.extend(ask(1, 77, &[0, 0, 0, 1, 31, 2, 0, 0, 0]));
    stream.extend(ask(1, 78, &[]));
    stream
}

/// Every other character at every place of a frame.
fn one_changed(good: &[u8]) -> Vec<u8> {
    let mut stream = Vec::new();
    for place in 0..good.len() {
        for character in 0..=255 {
            let mut bad = good.to_vec();
            bad[place] = character;
            stream.extend(bad);
        }
    }
    stream
}

/// Pieces of every length up to 280: digits between good ends, and frames
/// whose only fault can be their length.
fn frame_lengths(rng: &mut Rng) -> Vec<u8> {
    let mut stream = Vec::new();
    for length in 3..=280 {
        stream.push(b':');
        stream.extend((3..length).map(|_| rng.pick(b"0123456789ABCDEFabcdef")));
        stream.extend(b"\r\n");
    }
    for count in (0..=4).chain(129..=136) {
        let contents = [vec![1, 50], rng.bytes(132)].concat();
        let contents = contents.iter().cycle().take(count).copied();
        let frame = frame(&contents.collect::<Vec<u8>>());
        stream.extend(&frame);
        stream.extend(either_case(rng, frame));
    }
    stream
}

/// Ends missing, doubled, changed places, and every beginning of a frame.
fn ends(_: &mut Rng) -> Vec<u8> {
    let good = b":01330FBD\r\n";
    let mut stream = Vec::new();
    for length in 0..good.len() {
        stream.extend(&good[..length]);
        stream.push(b'\n');
        stream.extend(&good[length..]);
    }
    for text in [
        "01330FBD\r\n",
        "::01330FBD\r\n",
        ":01330FBD\n",
        ":01330FBD\n\r",
        ":01330FBD\r\r\n",
        ":01330FBD0\n",
        ";01330FBD\r\n",
        ":01330FBD \n",
        " :0132CD\n",
        ":0132CD:\n",
        ":0132CD\r\n:0132CD",
    ] {
        stream.extend(text.as_bytes());
    }
    stream
}

/// Wish 2 for each of the commands; the longest draw stays below 65,536 bytes.
fn letters(rng: &mut Rng) -> Vec<u8> {
    let mut stream = Vec::new();
    for command in COMMANDS.repeat(20) {
        stream.extend(in_either_case(rng, 1, command).concat());
    }
    stream
}

/// Wish 4 for each of the commands; the longest draw stays below 65,536 bytes.
fn other_checksums(rng: &mut Rng) -> Vec<u8> {
    let mut stream = Vec::new();
    for command in COMMANDS.repeat(10) {
        stream.extend(with_other_sums(rng, 1, command).concat());
    }
    stream
}

/// Wish 7: each item is written, written over and written again as it is, and
/// asked behind each; then writes that leave every word. The longest draw stays
/// below 65,536 bytes.
fn signatures(rng: &mut Rng) -> Vec<u8> {
    let mut stream = Vec::new();
    for item in &ITEMS {
        let [write, _, sign] = item.commands;
        let [more, less] = more_and_less(rng, item);
        for data in [&more, &less, &less, &more] {
            stream.extend(ask(1, write, data));
            stream.extend(ask(1, sign, &[item.number]));
        }
    }
    for command in [51, 76, 77] {
        stream.extend(ask(1, command, &good_data(rng, command)));
        stream.extend(ask(1, 61, &[1]));
    }
    for (write, sign) in [(53, 55), (59, 61), (62, 64)].repeat(5) {
        for data in faulty_data(rng, write) {
            stream.extend(ask(1, write, &data));
            stream.extend(ask(1, sign, &data[..1]));
        }
    }
    stream
}

/// Wish 7: tables whose full sum is several times 65,536, with parts written
/// over so that the word goes past either end.
fn full_tables(rng: &mut Rng) -> Vec<u8> {
    let mut stream = Vec::new();
    for table in [rng.between(1, 8), rng.between(11, 18)] {
        let first = (1..=11).collect::<Vec<u8>>();
        let again = (0..90).map(|_| rng.between(1, 11)).collect();
        for number in [first, again].concat() {
            let rows = match rng.below(3) {
                0 => vec![0; 128],
                1 => vec![255; 128],
                _ => rng.bytes(128),
            };
            stream.extend(ask(1, 59, &[vec![table, number], rows].concat()));
            stream.extend(ask(1, 61, &[table]));
        }
    }
    stream
}

/// Bodies of 3 to 133 bytes for a command, with good and with bad numbers.
fn body_lengths(rng: &mut Rng, command: u8) -> Vec<u8> {
    let mut stream = Vec::new();
    for count in 0..=130usize {
        let mut data = match command {
            53 => constants(rng, 1),
            59 => part(rng, 1, 1),
            62 => errors(rng, 1, (count.saturating_sub(2) / 3) as u8),
            77 => clock(rng),
            _ => vec![1, 1],
        };
        data.resize(count, 0);
        stream.extend(ask(1, command, &data));
        data.fill(rng.byte());
        stream.extend(ask(1, command, &data));
    }
    stream
}
