//! Document 02, wish 10: checking a table file before it is sent.

use super::{image_at, put};
use crate::block::{held_parts, volume_at};
use crate::fixed;
use crate::probe::{self, SCRIPT_MAX};
use crate::probe_scripts::{self, one_wrong_files};
use crate::streams::{ask, Rng};
use crate::table_file::told::told;
use crate::table_file::{check, number, Refusal};
use crate::table_files::{is_inside, some_steps, Change, Draft, Letters, Where};
use crate::table_files::{LIMITS, PARTS, PIECES, ROW_CHANGES, WRITES};
use crate::tables::{Row, ROWS};

/// Table 12 to address 7, row 1 with level 100 and volume 150, and so on.
fn even() -> Draft {
    Draft {
        address: 7,
        table: 12,
        rows: (1..=352)
            .map(|row| Row::new(100 * row, 150 * row))
            .collect(),
        order: vec![3, 11, 1, 2, 10, 9, 8, 4, 5, 7, 6],
        letters: Letters::Capital,
    }
}

fn file_of(draft: &Draft) -> Vec<u8> {
    draft.file(&mut Rng::new(1, 90), &[])
}

/// The longest file that there can be of eleven frames is far below the limit.
#[test]
fn eleven_frames_have_2959_bytes() {
    let file = file_of(&even());
    assert_eq!((file.len(), check(&file)), (2959, Ok(())));
    for length in [4096, 4097] {
        let mut longer = file.clone();
        longer.resize(length, b'\n');
        assert_eq!(check(&longer), Err(Refusal::Frames));
    }
}

#[test]
fn files_are_judged_as_written() {
    let file = file_of(&even());
    for (bytes, outcome) in [
        (&b""[..], 17),
        (b"\n", 17),
        (&file[..], 0),
        (&file[..2958], 17),
        (&file[..2690], 17),
        (&file[269..], 17),
        (&file.to_ascii_lowercase(), 0),
        (&[&file[..], b"\n"].concat(), 17),
        (&[&file[..], b" "].concat(), 17),
        (&b":0132CD\r\n".repeat(11), 18),
        (&b":0132CE\r\n".repeat(11), 17),
        (&file.repeat(2), 17),
    ] {
        assert_eq!((number(bytes), told(bytes)), (outcome, outcome));
    }
}

#[test]
fn every_row_can_be_row_n() {
    for last in 1..=ROWS {
        let mut draft = even();
        let row = draft.rows[last - 1];
        draft.rows[last..].fill(row);
        let file = file_of(&draft);
        assert_eq!((number(&file), told(&file)), (0, 0), "{last}");
        if last < ROWS - 1 {
            draft.rows[ROWS - 1].level += 1;
            let file = file_of(&draft);
            assert_eq!((number(&file), told(&file)), (20, 20), "{last}");
        }
    }
}

#[test]
fn every_step_is_judged() {
    for step in 1..ROWS {
        let row = even().rows[step - 1];
        for (next, outcome) in [
            (Row::new(row.level - 1, row.volume), 20),
            (Row::new(row.level + 1, row.volume - 1), 20),
            (Row::new(row.level, row.volume + 1), 20),
            (Row::new(row.level + 1, row.volume), 0),
            (row, if step == ROWS - 1 { 0 } else { 20 }),
        ] {
            let mut draft = even();
            draft.rows[step] = next;
            let file = file_of(&draft);
            assert_eq!((number(&file), told(&file)), (outcome, outcome), "{step}");
        }
    }
}

#[test]
fn every_table_and_address_is_judged() {
    for value in 0..=255 {
        let mut draft = even();
        draft.table = value;
        let is_table = (1..=8).chain(11..=18).any(|table| table == value);
        assert_eq!(number(&file_of(&draft)), if is_table { 0 } else { 18 });
        let mut draft = even();
        draft.address = value;
        assert_eq!(number(&file_of(&draft)), if value == 0 { 18 } else { 0 });
    }
}

/// Whatever a part is called, it is accepted under its own number alone.
#[test]
fn every_part_is_judged() {
    for place in 0..11 {
        for value in 0..=255 {
            let mut pieces = even().pieces(&mut Rng::new(1, 91));
            let part = even().order[place];
            let rows = (32 * usize::from(part) - 32, 32 * usize::from(part));
            let data = crate::tables::bytes(&even().rows[rows.0..rows.1]);
            pieces[place] = ask(7, 59, &[&[12, value], &data[..]].concat());
            let outcome = if value == part { 0 } else { 19 };
            assert_eq!(number(&pieces.concat()), outcome);
        }
    }
}

#[test]
fn changes_are_what_they_say() {
    let mut rng = Rng::new(1, 92);
    for _ in 0..8 {
        let all = PIECES.iter().chain(&LIMITS).chain(&WRITES).chain(&PARTS);
        for &(name, outcome, change) in all.chain(&ROW_CHANGES) {
            let places = match change {
                Change::Rows(_) => some_steps(&mut rng).to_vec(),
                _ => Where::ALL.map(|place| place.frame(&mut rng)).to_vec(),
            };
            for at in places {
                let file = Draft::any(&mut rng).file(&mut rng, &[(change, at)]);
                let judged = (number(&file), told(&file));
                assert_eq!(judged, (outcome, outcome), "{name} at {at}");
            }
        }
        for frame in 0..11 {
            let change = Change::Rows(is_inside);
            let file = Draft::any(&mut rng).file(&mut rng, &[(change, frame)]);
            assert_eq!((number(&file), told(&file)), (20, 20));
        }
    }
}

#[test]
fn drafts_are_accepted() {
    let mut rng = Rng::new(1, 93);
    for _ in 0..2_000 {
        let file = Draft::any(&mut rng).file(&mut rng, &[]);
        assert_eq!((number(&file), told(&file)), (0, 0));
    }
}

/// Bytes that are changed by chance, in files that were good.
#[test]
fn both_tellings_say_the_same() {
    let mut rng = Rng::new(1, 94);
    let mut numbers = [0; 21];
    for round in 0..3_000 {
        let mut pieces = Draft::any(&mut rng).pieces(&mut rng);
        for _ in 0..rng.pick(&[0, 1, 1, 2]) {
            let at = rng.below(11);
            // Address, command, table and part, and any other byte.
            let mut contents = vec![0; 132];
            let length = crate::block::take_apart(&pieces[at], &mut contents);
            contents.truncate(length.unwrap_or(132));
            let any = rng.below(contents.len());
            let place = rng.pick(&[0, 1, 2, 3, any, any]).min(contents.len() - 1);
            let near = contents[place].wrapping_add(rng.pick(&[1, 255]));
            contents[place] = rng.pick(&[near, near, 0, 11, 255]);
            pieces[at] = crate::streams::frame(&contents);
        }
        let mut file = pieces.concat();
        if round % 4 == 0 {
            let place = rng.below(file.len());
            file[place] = rng.pick(b":\r\n0FfGg");
        }
        assert_eq!(number(&file), told(&file));
        numbers[usize::from(number(&file))] += 1;
    }
    for number in [0, 17, 18, 19, 20] {
        assert!(numbers[number] > 100, "{numbers:?}");
    }
}

/// What the wish says of an accepted file.
#[test]
fn accepted_files_are_served_and_answered() {
    let mut rng = Rng::new(1, 95);
    for _ in 0..100 {
        let draft = Draft::any(&mut rng);
        let mut pieces = draft.pieces(&mut rng);
        assert_eq!(check(&pieces.concat()), Ok(()));
        let turn = rng.below(11);
        pieces.rotate_left(turn);
        let mut image = image_at(draft.address);
        for piece in &pieces {
            assert_eq!(put(&mut image, piece).0, 0);
        }
        let table = u32::from(draft.table);
        assert_eq!(held_parts(&image, table.into()), Ok((11, 0)));
        for row in &draft.rows {
            let volume = u32::from(row.volume);
            assert_eq!(volume_at(&image, table, row.level.into()), Ok(volume));
        }
    }
}

#[test]
fn probe_spells_a_number_and_touches_nothing() {
    let file = file_of(&even());
    let record = |bytes: &[u8]| [b"C", &(bytes.len() as u16).to_be_bytes()[..], bytes].concat();
    let script = [record(&file), record(b""), record(&file[1..])].concat();
    assert_eq!(probe::lines(&script), ["C 0", "C 17", "C 17"]);
    let asked = [
        b"F\x07O\x01\x0D\x55".to_vec(),
        record(&file),
        b"S\x00\x00".to_vec(),
    ]
    .concat();
    let plain = [&b"F\x07O\x01\x0D\x55"[..], b"S\x00\x00"].concat();
    let lines = probe::lines(&asked);
    assert_eq!(
        [&lines[0], &lines[2]],
        [&probe::lines(&plain)[0], &probe::lines(&plain)[1]]
    );
    let whole = record(b"0");
    for cut in 1..whole.len() {
        assert_eq!(probe::lines(&whole[..cut]), ["?"]);
    }
}

#[test]
fn scripts_with_table_files_are_read_to_their_end() {
    let mut checked = 0;
    for seed in 0..2 {
        for place in 0..probe_scripts::purposeful() {
            let (name, script) = probe_scripts::script(seed, place);
            if name.starts_with("table file") {
                assert!(script.len() <= SCRIPT_MAX, "{name}: {}", script.len());
                let lines = probe::lines(&script);
                assert!(lines.iter().all(|line| line != "?"), "{name}");
                if name == "table files, one thing wrong" {
                    checked += lines.len();
                }
            }
        }
    }
    assert_eq!(checked, 2 * one_wrong_files(), "some had no room");
}

#[test]
fn fixed_files_have_room() {
    for session in fixed::sessions() {
        if session.name.starts_with("table file") {
            let script = probe_scripts::fixed_calls(session);
            assert!(
                script.len() <= SCRIPT_MAX,
                "{}: {}",
                session.name,
                script.len()
            );
        }
    }
}
