//! The rule of document 02, wish 10 once more, told otherwise: each number is
//! judged for itself and the lowest one given, characters are compared as they
//! stand, and the rows that repeat the last one are taken off from the end.
//! Nothing is taken from `block`, so a slip in either shows. What is compared is
//! in capitals: those of a greater digit are the greater ones, so that numbers
//! of as many digits stand in the order of their text.

/// Table numbers in two digits.
const TABLES: [&[u8]; 16] = [
    b"01", b"02", b"03", b"04", b"05", b"06", b"07", b"08", b"0B", b"0C", b"0D", b"0E", b"0F",
    b"10", b"11", b"12",
];
const PARTS: [&[u8]; 11] = [
    b"01", b"02", b"03", b"04", b"05", b"06", b"07", b"08", b"09", b"0A", b"0B",
];

/// The number that a file gets.
pub fn told(file: &[u8]) -> u8 {
    let text = file.to_ascii_uppercase();
    let pieces = cut(&text);
    let few = file.len() < 4097 && pieces.len() == 11;
    let judged = [
        (17, few && pieces.iter().all(|piece| is_frame(piece))),
        (18, are_writes(&pieces)),
        (19, are_parts(&pieces)),
        (20, climb(&pieces)),
    ];
    let refused = judged.iter().filter(|(_, holds)| !holds);
    refused.map(|&(number, _)| number).min().unwrap_or(0)
}

/// Pieces of a text, each with the 0Ah that ends it, if there is one.
fn cut(mut text: &[u8]) -> Vec<&[u8]> {
    let mut pieces = Vec::new();
    while !text.is_empty() {
        let feed = text.iter().position(|&byte| byte == b'\n');
        let (piece, rest) = text.split_at(feed.map_or(text.len(), |place| place + 1));
        pieces.push(piece);
        text = rest;
    }
    pieces
}

/// Checks 3 to 6: a frame of 9 to 269 characters has 6 to 266 digits, and all its
/// bytes, the checksum with them, add up to 0.
fn is_frame(piece: &[u8]) -> bool {
    let inner = piece.strip_prefix(b":");
    let inner = inner.and_then(|rest| rest.strip_suffix(b"\r\n"));
    let worth = |&character: &u8| char::from(character).to_digit(16);
    let digits: Option<Vec<u32>> = inner.and_then(|inner| inner.iter().map(worth).collect());
    digits.is_some_and(|digits| {
        let highs: u32 = digits.iter().step_by(2).sum();
        let lows: u32 = digits.iter().skip(1).step_by(2).sum();
        let length = digits.len();
        (6..=266).contains(&length) && length % 2 == 0 && (16 * highs + lows).is_multiple_of(256)
    })
}

/// Two characters of each piece, none of a piece that has not so many.
fn twos<'a>(pieces: &[&'a [u8]], place: usize) -> Vec<&'a [u8]> {
    let two = |piece: &&'a [u8]| piece.get(place..place + 2).unwrap_or_default();
    pieces.iter().map(two).collect()
}

/// A body of 133 bytes makes a frame of 269 characters; 59 is 3Bh.
fn are_writes(pieces: &[&[u8]]) -> bool {
    let (addresses, tables) = (twos(pieces, 1), twos(pieces, 5));
    let alike = |all: &[&[u8]]| all.windows(2).all(|pair| pair[0] == pair[1]);
    pieces.iter().all(|piece| piece.len() == 269)
        && twos(pieces, 3).iter().all(|two| *two == b"3B")
        && alike(&addresses)
        && alike(&tables)
        && !addresses.contains(&&b"00"[..])
        && tables.iter().all(|table| TABLES.contains(table))
}

fn are_parts(pieces: &[&[u8]]) -> bool {
    let mut parts = twos(pieces, 7);
    parts.sort();
    parts == PARTS
}

/// Rows are eight characters each, from the tenth on, four of them the level.
fn climb(pieces: &[&[u8]]) -> bool {
    let mut pieces = pieces.to_vec();
    pieces.sort_by_key(|piece| piece.get(7..9));
    let rows = pieces.iter().filter_map(|piece| piece.get(9..265));
    let mut rows: Vec<&[u8]> = rows.flat_map(|rows| rows.chunks(8)).collect();
    while let [.., before, last] = rows[..] {
        if before != last {
            break;
        }
        rows.pop();
    }
    rows.windows(2).all(|pair| {
        let ([level, volume], [next_level, next_volume]) = (halves(pair[0]), halves(pair[1]));
        level < next_level && volume <= next_volume
    })
}

fn halves(row: &[u8]) -> [&[u8]; 2] {
    [&row[..4], &row[4..]]
}
