//! Checkers that judge commands, lengths, addresses, tables or parts otherwise.

use super::{is_table, Checker, Wrong, RIGHT};

const fn is_write(is_write: fn(&[u8], usize) -> bool) -> Checker {
    Checker { is_write, ..RIGHT }
}

const fn alike(alike: fn(&[[u8; 2]]) -> bool) -> Checker {
    Checker { alike, ..RIGHT }
}

const fn address(address: fn(u8) -> bool) -> Checker {
    Checker { address, ..RIGHT }
}

const fn table(table: fn(u8) -> bool) -> Checker {
    Checker { table, ..RIGHT }
}

const fn parts(parts: fn(&[u8]) -> bool) -> Checker {
    Checker { parts, ..RIGHT }
}

/// Whether neighbours are alike, or all of them by a value of theirs.
fn by<T: PartialEq>(all: &[[u8; 2]], value: fn(&[u8; 2]) -> T) -> bool {
    all.windows(2)
        .all(|pair| value(&pair[0]) == value(&pair[1]))
}

pub const WRITES: [Wrong; 38] = [
    (
        "commands not asked",
        is_write(|contents, _| contents.len() == 132),
    ),
    (
        "the first command alone asked",
        is_write(|contents, place| contents.len() == 132 && (place > 0 || contents[1] == 59)),
    ),
    (
        "the last command not asked",
        is_write(|contents, place| contents.len() == 132 && (place == 10 || contents[1] == 59)),
    ),
    (
        "command 58 taken",
        is_write(|contents, _| contents.len() == 132 && (58..=59).contains(&contents[1])),
    ),
    (
        "command 60 taken",
        is_write(|contents, _| contents.len() == 132 && (59..=60).contains(&contents[1])),
    ),
    (
        "lengths not asked",
        is_write(|contents, _| contents[1] == 59),
    ),
    (
        "the first length alone asked",
        is_write(|contents, place| contents[1] == 59 && (place > 0 || contents.len() == 132)),
    ),
    (
        "the last length not asked",
        is_write(|contents, place| contents[1] == 59 && (place == 10 || contents.len() == 132)),
    ),
    (
        "bodies of 132 bytes taken",
        is_write(|contents, _| contents[1] == 59 && contents.len() > 130),
    ),
    (
        "bodies of 131 bytes taken",
        is_write(|contents, _| contents[1] == 59 && matches!(contents.len(), 130 | 132)),
    ),
    (
        "a length for writes alone",
        is_write(|contents, _| contents[1] == 60 || contents[1] == 59 && contents.len() == 132),
    ),
    ("neither addresses nor tables compared", alike(|_| true)),
    (
        "addresses not compared",
        alike(|all| by(all, |[_, table]| *table)),
    ),
    (
        "tables not compared",
        alike(|all| by(all, |[address, _]| *address)),
    ),
    (
        "the first and the last alone compared",
        alike(|all| all.first() == all.last()),
    ),
    (
        "the last not compared",
        alike(|all| (RIGHT.alike)(&all[..all.len().saturating_sub(1)])),
    ),
    (
        "the first two alone compared",
        alike(|all| (RIGHT.alike)(&all[..all.len().min(2)])),
    ),
    (
        "tables compared by their last digit",
        alike(|all| by(all, |[address, table]| [*address, table % 10])),
    ),
    (
        "address and table compared by their sum",
        alike(|all| by(all, |[address, table]| address.wrapping_add(*table))),
    ),
    ("address 0 taken", address(|_| true)),
    (
        "address 255 refused",
        address(|address| !matches!(address, 0 | 255)),
    ),
    (
        "addresses above 127 refused",
        address(|address| (1..128).contains(&address)),
    ),
    ("address 1 alone taken", address(|address| address == 1)),
    ("tables not judged", table(|_| true)),
    (
        "table 0 taken",
        table(|table| is_table(table) || table == 0),
    ),
    (
        "table 9 taken",
        table(|table| is_table(table) || table == 9),
    ),
    (
        "table 10 taken",
        table(|table| is_table(table) || table == 10),
    ),
    (
        "table 19 taken",
        table(|table| is_table(table) || table == 19),
    ),
    (
        "table 255 taken",
        table(|table| is_table(table) || table == 255),
    ),
    ("tables 1 to 18", table(|table| (1..=18).contains(&table))),
    ("tables 1 to 16", table(|table| (1..=16).contains(&table))),
    ("main tables alone", table(|table| (1..=8).contains(&table))),
    (
        "tables by their last digit",
        table(|table| (1..=8).contains(&(table % 10))),
    ),
    ("tables cut to 5 bits", table(|table| is_table(table % 32))),
    ("tables cut to 7 bits", table(|table| is_table(table % 128))),
    (
        "table 1 refused",
        table(|table| is_table(table) && table != 1),
    ),
    (
        "tables 8 and 18 refused",
        table(|table| is_table(table) && table % 10 != 8),
    ),
    (
        "table 11 refused",
        table(|table| is_table(table) && table != 11),
    ),
];

/// Whether all of these parts are there, among whatever others.
fn has_all(parts: &[u8], wanted: std::ops::RangeInclusive<u8>) -> bool {
    wanted.into_iter().all(|part| parts.contains(&part))
}

fn is_part(part: u8) -> bool {
    (1..=11).contains(&part)
}

fn twice(parts: &[u8]) -> bool {
    (0..parts.len()).any(|place| parts[..place].contains(&parts[place]))
}

pub const PARTS: [Wrong; 19] = [
    ("parts not judged", parts(|_| true)),
    (
        "a part twice taken",
        parts(|parts| parts.iter().all(|&part| is_part(part))),
    ),
    ("parts outside taken", parts(|parts| !twice(parts))),
    (
        "part 0 taken",
        parts(|parts| !twice(parts) && parts.iter().all(|&part| part <= 11)),
    ),
    (
        "part 12 taken",
        parts(|parts| !twice(parts) && parts.iter().all(|&part| (1..=12).contains(&part))),
    ),
    (
        "part 255 taken",
        parts(|parts| !twice(parts) && parts.iter().all(|&part| is_part(part) || part == 255)),
    ),
    ("parts 0 to 10", parts(|parts| has_all(parts, 0..=10))),
    (
        "ten parts are enough",
        parts(|parts| (1..=11).filter(|part| parts.contains(part)).count() >= 10),
    ),
    (
        "part 1 and part 11 asked alone",
        parts(|parts| parts.contains(&1) && parts.contains(&11)),
    ),
    (
        "parts cut to 4 bits",
        parts(|parts| {
            let low: Vec<u8> = parts.iter().map(|part| part % 16).collect();
            has_all(&low, 1..=11)
        }),
    ),
    (
        "parts cut to 7 bits",
        parts(|parts| {
            let low: Vec<u8> = parts.iter().map(|part| part % 128).collect();
            has_all(&low, 1..=11)
        }),
    ),
    (
        "parts by their sum",
        parts(|parts| parts.iter().map(|&part| u32::from(part)).sum::<u32>() == 66),
    ),
    (
        "parts by their exclusive or",
        parts(|parts| parts.iter().fold(0, |all, part| all ^ part) == 0),
    ),
    (
        "a part twice where frames are neighbours",
        parts(|parts| {
            parts.iter().all(|&part| is_part(part))
                && parts.windows(2).all(|pair| pair[0] != pair[1])
        }),
    ),
    (
        "the last part not judged",
        parts(|parts| {
            let before = &parts[..parts.len().saturating_sub(1)];
            !twice(before) && before.iter().all(|&part| is_part(part))
        }),
    ),
    (
        "the first part not judged",
        parts(|parts| {
            let behind = parts.get(1..).unwrap_or_default();
            !twice(behind) && behind.iter().all(|&part| is_part(part))
        }),
    ),
    (
        "parts in order alone",
        parts(|parts| parts.iter().copied().eq(1..=11)),
    ),
    (
        "part 1 must come first",
        parts(|parts| (RIGHT.parts)(parts) && parts.first() == Some(&1)),
    ),
    (
        "part 11 must come last",
        parts(|parts| (RIGHT.parts)(parts) && parts.last() == Some(&11)),
    ),
];
