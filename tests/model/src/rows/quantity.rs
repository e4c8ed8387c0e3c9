//! Document 02, wish 3: quantity at a level.

use super::image_at;
use crate::block::{volume_at, Refusal};
use crate::items::item;
use crate::probe::{self, SCRIPT_MAX};
use crate::probe_scripts;
use crate::quantity::told;
use crate::streams::{ask, Rng};
use crate::tables::{
    all_levels, bytes, fall, falls, good, level, padded, part, rows, steep, strict, with_runs, Of,
    Row, ROWS,
};

const BOTH: [Of; 2] = [Of::Level, Of::Volume];

/// An image that holds all parts of this table, with these rows.
fn image_of(table: u8, rows: &[Row]) -> Vec<u8> {
    let mut image = image_at(1);
    hold(&mut image, table, rows);
    image
}

fn hold(image: &mut [u8], table: u8, rows: &[Row]) {
    let offset = item(59, table).expect("a table").offset;
    image[offset..offset + 1408].copy_from_slice(&bytes(rows));
    let place = if table < 10 { table - 1 } else { table - 3 };
    image[17 + 2 * usize::from(place)..][..2].copy_from_slice(&[0x07, 0xFF]);
}

/// Row 1 has level 100 and volume 150, row 2 level 200 and volume 300, and so on.
fn even() -> Vec<Row> {
    (1..=352)
        .map(|row| Row::new(100 * row, 150 * row))
        .collect()
}

fn answer(image: &[u8], table: u32, level: u32) -> (u8, u32) {
    match volume_at(image, table, level) {
        Ok(volume) => (0, volume),
        Err(refusal) => (refusal.number(), 0),
    }
}

#[test]
fn questions_are_answered_as_written() {
    let image = image_of(12, &even());
    for (level, outcome) in [
        (99, Err(Refusal::Level)),
        (100, Ok(150)),
        (101, Ok(151)),
        (150, Ok(225)),
        (199, Ok(298)),
        (200, Ok(300)),
        (35_199, Ok(52_798)),
        (35_200, Ok(52_800)),
        (35_201, Err(Refusal::Level)),
        (65_636, Err(Refusal::Level)),
    ] {
        assert_eq!(volume_at(&image, 12, level), outcome, "level {level}");
    }
    assert_eq!(volume_at(&image, 2, 100), Err(Refusal::Incomplete));
}

#[test]
fn both_tellings_say_the_same() {
    let mut rng = Rng::new(1, 80);
    let mut numbers = [0; 15];
    for round in 0..3_000 {
        let mut rows = good(&mut rng);
        if round % 5 == 0 {
            let step = 1 + rng.below(ROWS - 1);
            if let Some((row, to)) = fall(&mut rng, &rows, step, BOTH[round % 2]) {
                rows[row] = to;
            }
        }
        let mut image = image_of(12, &rows);
        match round % 7 {
            0 => image[35 + rng.below(2)] ^= 1 << rng.below(3),
            1 => image[rng.below(49)] ^= 1 << rng.below(8),
            _ => {}
        }
        for _ in 0..20 {
            let table = rng.pick(&[12, 12, 12, 12, 12, 12, 2, 9, 268]);
            let level = level(&mut rng, &rows);
            let outcome = answer(&image, table, level);
            assert_eq!(told(&image, table, level), outcome);
            numbers[usize::from(outcome.0)] += 1;
        }
    }
    for number in [0, 1, 10, 12, 13, 14] {
        assert!(numbers[number] > 500, "{numbers:?}");
    }
}

/// At every level there is, the answer does not fall, and at a row's level it is
/// the volume of the last row with that level.
#[test]
fn answers_never_fall_and_meet_the_rows() {
    let mut rng = Rng::new(1, 81);
    for draw in [strict, padded, with_runs, steep, good, good, good, good] {
        let rows = draw(&mut rng);
        let image = image_of(5, &rows);
        let mut last = 0;
        for level in rows[0].level..=rows[ROWS - 1].level {
            let (number, volume) = told(&image, 5, level.into());
            assert!(number == 0 && last <= volume);
            if let Some(row) = rows.iter().rfind(|row| row.level == level) {
                assert_eq!(volume, u32::from(row.volume));
                assert_eq!(volume_at(&image, 5, level.into()), Ok(volume));
            }
            last = volume;
        }
    }
}

#[test]
fn answers_lie_between_two_rows() {
    let mut rng = Rng::new(1, 82);
    for _ in 0..300 {
        let rows = good(&mut rng);
        let image = image_of(18, &rows);
        for level in all_levels(&mut rng, &rows) {
            let place = rows.iter().rposition(|row| u32::from(row.level) <= level);
            let (Some(place), Ok(volume)) = (place, volume_at(&image, 18, level)) else {
                continue;
            };
            let next = rows[(place + 1).min(ROWS - 1)];
            assert!((rows[place].volume.into()..=next.volume.into()).contains(&volume));
        }
    }
}

#[test]
fn every_step_is_judged() {
    let mut rng = Rng::new(1, 83);
    let rows = even();
    for step in 1..ROWS {
        for of in BOTH {
            let (row, to) = fall(&mut rng, &rows, step, of).expect("neither 0 nor 65,535");
            let mut falling = rows.clone();
            falling[row] = to;
            let image = image_of(1, &falling);
            for level in [0, 100, 17_650, 35_200, 65_536] {
                assert_eq!(volume_at(&image, 1, level), Err(Refusal::Falling));
            }
        }
    }
}

#[test]
fn every_part_is_asked() {
    for table in (1..=8).chain(11..=18) {
        let mut image = image_of(table, &even());
        let place = 17 + 2 * usize::from(if table < 10 { table - 1 } else { table - 3 });
        for word in 0..2048u16 {
            image[place..place + 2].copy_from_slice(&word.to_be_bytes());
            let outcome = match word {
                2047 => Ok(150),
                _ => Err(Refusal::Incomplete),
            };
            assert_eq!(volume_at(&image, table.into(), 100), outcome);
        }
        image[place] = 0x0F;
        assert_eq!(volume_at(&image, table.into(), 100), Err(Refusal::Image));
    }
}

#[test]
fn neither_number_is_cut_short() {
    let mut image = image_at(1);
    for table in (1..=8).chain(11..=18) {
        hold(&mut image, table, &even());
    }
    for table in (1..=8).chain(11..=18) {
        assert_eq!(volume_at(&image, table, 100), Ok(150));
        for bit in 5..32 {
            let wide = table | 1 << bit;
            assert_eq!(volume_at(&image, wide, 100), Err(Refusal::Item), "{wide}");
        }
        for bit in 16..32 {
            let wide = 100 | 1 << bit;
            assert_eq!(
                volume_at(&image, table, wide),
                Err(Refusal::Level),
                "{wide}"
            );
        }
    }
    for table in [0, 9, 10, 19, 258, 268, 65_537, u32::MAX] {
        assert_eq!(volume_at(&image, table, 100), Err(Refusal::Item));
    }
}

#[test]
fn checks_stand_in_order() {
    let mut falling = even();
    falling[351] = Row::new(35_200, 0);
    let mut image = image_of(3, &falling);
    assert_eq!(answer(&image, 3, 0), (13, 0));
    assert_eq!(answer(&image, 9, 0), (10, 0));
    image[22] = 0xFE;
    assert_eq!(answer(&image, 3, 0), (12, 0));
    image[5] = 0;
    for table in [3, 9, u32::MAX] {
        assert_eq!(answer(&image, table, 0), (1, 0));
    }
}

#[test]
fn tables_are_drawn_as_promised() {
    let mut rng = Rng::new(1, 84);
    for _ in 0..2_000 {
        for draw in [strict, padded, with_runs, steep, good] {
            let table = draw(&mut rng);
            assert_eq!((table.len(), rows(&bytes(&table))), (ROWS, table.clone()));
            assert!(BOTH.iter().all(|&of| falls(&table, of).is_empty()));
            let step = 1 + rng.below(ROWS - 1);
            let of = rng.pick(&BOTH);
            if let Some((row, to)) = fall(&mut rng, &table, step, of) {
                let mut falling = table.clone();
                falling[row] = to;
                let fallen = BOTH.map(|each| falls(&falling, each));
                assert_eq!(fallen.concat(), [step]);
                assert_eq!(fallen[usize::from(of == Of::Volume)], [step]);
            }
        }
        let rising = strict(&mut rng);
        let rises = |pair: &[Row]| pair[0].level < pair[1].level && pair[0].volume < pair[1].volume;
        assert!(rising.windows(2).all(rises));
    }
}

#[test]
fn parts_hold_their_rows() {
    let table: Vec<Row> = (0..352)
        .map(|row| Row::new(256 * (row % 256), row))
        .collect();
    let all: Vec<u8> = (1..=11)
        .flat_map(|number| part(7, &table, number)[2..].to_vec())
        .collect();
    assert_eq!(all, bytes(&table));
    assert_eq!(part(7, &table, 11)[..6], [7, 11, 64, 0, 1, 64]);
}

/// A record that asks for a volume.
fn asked(table: u32, level: u32) -> Vec<u8> {
    [b"A", &table.to_be_bytes()[..], &level.to_be_bytes()].concat()
}

#[test]
fn probe_spells_a_volume() {
    let empty = [b"L\x00\x00\x00".to_vec(), asked(9, 0)].concat();
    assert_eq!(probe::lines(&empty), ["A 1 0"]);
    let mut script = b"F\x01".to_vec();
    for number in 1..=11 {
        let frame = ask(1, 59, &part(12, &even(), number));
        script.extend([b"S\x01\x0D", &frame[..]].concat());
    }
    for (table, level) in [(12, 199), (12, 35_200), (12, 65_636), (2, 199), (268, 199)] {
        script.extend(asked(table, level));
    }
    script.extend(b"L\x00\x5D\x08");
    script.extend(asked(12, 199));
    let lines = probe::lines(&script);
    assert_eq!(
        lines[12..],
        [
            "A 0 298",
            "A 0 52800",
            "A 14 0",
            "A 12 0",
            "A 10 0",
            "A 1 0"
        ]
    );
}

#[test]
fn probe_stops_at_a_question_cut_short() {
    let whole = asked(1, 0);
    assert_eq!(probe::lines(&whole), ["A 1 0"]);
    for cut in 1..whole.len() {
        assert_eq!(probe::lines(&whole[..cut]), ["?"]);
    }
}

#[test]
fn scripts_with_questions_are_read_to_their_end() {
    for seed in 0..3 {
        for number in 0..probe_scripts::purposeful() {
            let (name, script) = probe_scripts::script(seed, number);
            if name.starts_with("quantity") {
                assert!(script.len() <= SCRIPT_MAX, "{name}: {}", script.len());
                assert!(
                    probe::lines(&script).iter().all(|line| line != "?"),
                    "{name}"
                );
            }
        }
    }
}
