//! Checkers that take other pieces for good frames, or judge in another order.

use super::{byte, in_order, Checker, File, Piece, Wrong, RIGHT};

const fn counts(counts: for<'a> fn(&'a File<'a>) -> Vec<&'a Piece<'a>>) -> Checker {
    Checker { counts, ..RIGHT }
}

const fn good(good: fn(&Piece, usize) -> bool) -> Checker {
    Checker { good, ..RIGHT }
}

const fn enough(enough: fn(usize) -> bool) -> Checker {
    Checker { enough, ..RIGHT }
}

const fn order(order: [u8; 4]) -> Checker {
    Checker { order, ..RIGHT }
}

const fn judges(judges: fn(&Checker, &File) -> u8) -> Checker {
    Checker { judges, ..RIGHT }
}

/// Pieces without those that look like this.
fn without<'a>(file: &'a File<'a>, left_out: fn(&Piece) -> bool) -> Vec<&'a Piece<'a>> {
    file.pieces
        .iter()
        .filter(|piece| !left_out(piece))
        .collect()
}

pub const PIECES: [Wrong; 29] = [
    (
        "a last piece without 0Ah left out",
        counts(|file| without(file, |piece| !piece.text.ends_with(b"\n"))),
    ),
    (
        "a last frame without 0Ah taken",
        good(|piece, _| piece.fault == 0 || piece.text.len() == 268 && piece.text.ends_with(b"\r")),
    ),
    (
        "a last frame without its end taken",
        good(|piece, _| {
            piece.fault == 0 || piece.text.len() == 267 && !piece.text.ends_with(b"\n")
        }),
    ),
    (
        "0Ah alone passed by",
        counts(|file| without(file, |piece| piece.text == b"\n")),
    ),
    (
        "0Dh 0Ah alone passed by",
        counts(|file| without(file, |piece| piece.text == b"\r\n")),
    ),
    (
        "pieces that are no frames passed by",
        counts(|file| without(file, |piece| piece.fault != 0)),
    ),
    (
        "pieces with a wrong checksum passed by",
        counts(|file| without(file, |piece| piece.fault == 6)),
    ),
    (
        "the first eleven alone looked at",
        counts(|file| file.pieces.iter().take(11).collect()),
    ),
    (
        "the last eleven alone looked at",
        counts(|file| {
            file.pieces
                .iter()
                .skip(file.pieces.len().saturating_sub(11))
                .collect()
        }),
    ),
    (
        "ten frames are enough",
        enough(|count| (10..=11).contains(&count)),
    ),
    (
        "twelve frames taken",
        enough(|count| (11..=12).contains(&count)),
    ),
    ("any number of frames taken", enough(|_| true)),
    (
        "a file without frames accepted",
        judges(|checker, file| match file.bytes.len() {
            0 => 0,
            _ => in_order(checker, file),
        }),
    ),
    ("frames not judged", good(|_, _| true)),
    (
        "the first frame alone judged",
        good(|piece, place| place > 0 || piece.fault == 0),
    ),
    (
        "the last frame not judged",
        good(|piece, place| place == 10 || piece.fault == 0),
    ),
    (
        "lengths not judged",
        good(|piece, _| matches!(piece.fault, 0 | 3)),
    ),
    (
        "even lengths taken",
        good(|piece, _| piece.fault == 0 || piece.fault == 3 && piece.text.len() < 270),
    ),
    (
        "longer frames taken",
        good(|piece, _| {
            piece.fault == 0 || piece.text.len() == 271 && piece.text.ends_with(b"\r\n")
        }),
    ),
    (
        "the first byte not judged",
        good(|piece, _| piece.fault == 0 || piece.fault == 4 && piece.text.ends_with(b"\r\n")),
    ),
    (
        "0Dh not judged",
        good(|piece, _| piece.fault == 0 || piece.fault == 4 && piece.text.starts_with(b":")),
    ),
    (
        "0Ah without 0Dh taken",
        good(|piece, _| {
            let bare = piece.text.len() == 268 && piece.text.ends_with(b"\n");
            piece.fault == 0 || bare && !piece.text.ends_with(b"\r\n")
        }),
    ),
    (
        "digits not judged",
        good(|piece, _| matches!(piece.fault, 0 | 5)),
    ),
    (
        "the first digit not judged",
        good(|piece, _| {
            let rest = piece.text.get(2..267).unwrap_or_default();
            piece.fault == 0 || piece.fault == 5 && rest.iter().all(u8::is_ascii_hexdigit)
        }),
    ),
    (
        "the last digit not judged",
        good(|piece, _| {
            let rest = piece.text.get(1..266).unwrap_or_default();
            piece.fault == 0 || piece.fault == 5 && rest.iter().all(u8::is_ascii_hexdigit)
        }),
    ),
    (
        "small letters refused",
        good(|piece, _| piece.fault == 0 && !piece.text.iter().any(u8::is_ascii_lowercase)),
    ),
    (
        "small letters refused in the first frame",
        good(|piece, place| {
            piece.fault == 0 && (place > 0 || !piece.text.iter().any(u8::is_ascii_lowercase))
        }),
    ),
    (
        "checksums not judged",
        good(|piece, _| matches!(piece.fault, 0 | 6)),
    ),
    (
        "the last checksum not judged",
        good(|piece, place| piece.fault == 0 || place == 10 && piece.fault == 6),
    ),
];

pub const ORDERS: [Wrong; 9] = [
    ("18 before 17", order([18, 17, 19, 20])),
    ("19 before 17", order([19, 17, 18, 20])),
    ("20 before 17", order([20, 17, 18, 19])),
    ("19 before 18", order([17, 19, 18, 20])),
    ("20 before 18", order([17, 20, 18, 19])),
    ("20 before 19", order([17, 18, 20, 19])),
    ("20, 19, 18 and then 17", order([20, 19, 18, 17])),
    ("the first frame that fails decides", judges(first_frame)),
    ("frames one by one for 18 and 19", judges(first_write)),
];

/// Goes through the frames and gives what the first that fails is refused for; how
/// many there are, and their rows, come last.
fn first_frame(checker: &Checker, file: &File) -> u8 {
    for (place, piece) in file.pieces.iter().enumerate() {
        if piece.fault != 0 {
            return 17;
        }
        if let Some(number) = of_frame(file, place) {
            return number;
        }
    }
    in_order(checker, file)
}

/// The same once all frames are known to be good.
fn first_write(checker: &Checker, file: &File) -> u8 {
    if checker.takes(file) {
        let mut places = 0..file.pieces.len();
        if let Some(number) = places.find_map(|place| of_frame(file, place)) {
            return number;
        }
    }
    in_order(checker, file)
}

/// 18 or 19 for one frame, by what stands in it and in those before it.
fn of_frame(file: &File, place: usize) -> Option<u8> {
    let of = |place: usize| &file.pieces[place].contents[..];
    let contents = of(place);
    let is_like_first = [0, 2]
        .iter()
        .all(|&at| byte(of(0), at) == byte(contents, at));
    let [address, table, part] = [0, 2, 3].map(|at| byte(contents, at));
    let is_write = (RIGHT.is_write)(contents, place) && is_like_first;
    if !is_write || !(RIGHT.address)(address) || !(RIGHT.table)(table) {
        return Some(18);
    }
    let is_there = (0..place).any(|before| byte(of(before), 3) == part);
    (is_there || !(1..=11).contains(&part)).then_some(19)
}
