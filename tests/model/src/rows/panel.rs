//! Document 02, wish 9: the panel's host passes plain numbers.

use super::image_at;
use crate::block::{held_parts, Refusal, Switch};
use crate::fixed::panel::sessions;
use crate::panel::{knows, lines, Record, Records};
use crate::probe::SCRIPT_MAX;
use crate::streams::{ask, good_data, Rng, COMMANDS};
use crate::{panel_scripts, probe, probe_scripts};

const P1: &[u8] = b":0132CD\r\n";

/// A record that serves a frame by this number.
fn by(number: u64, frame: &[u8]) -> Vec<u8> {
    let length = (frame.len() as u16).to_be_bytes();
    [b"Z", &number.to_be_bytes()[..], &length, frame].concat()
}

#[test]
fn switch_is_sealed_by_every_number_but_0() {
    assert_eq!(Switch::by_number(0), Switch::Unsealed);
    for bit in 0..64 {
        for number in [1 << bit, u64::MAX << bit, u64::MAX >> bit] {
            assert_eq!(Switch::by_number(number), Switch::Sealed, "{number}");
        }
    }
}

#[test]
fn no_bit_of_a_table_number_is_dropped() {
    let image = image_at(1);
    for table in (1..=8).chain(11..=18) {
        assert_eq!(held_parts(&image, table), Ok((0, 1)));
        for bit in 5..64 {
            let wide = table | 1 << bit;
            assert_eq!(held_parts(&image, wide), Err(Refusal::Item), "{wide}");
        }
    }
}

#[test]
fn panel_spells_its_answers() {
    let nothing = [b"L\x00\x00\x00O\x00\x00\x00", &by(256, b"")[..]].concat();
    let asked = b"J\x00\x00\x00\x00\x00\x00\x01\x02H\x00\x00\x00\x01".to_vec();
    let script = [nothing, asked.clone()].concat();
    assert_eq!(lines(&script), ["Z 1 0 1 1", "J 1 0 0", "H 1 0 0"]);
    let fresh = [b"F\x01".to_vec(), asked].concat();
    assert_eq!(lines(&fresh)[1..], ["J 10 0 0", "H 0 0 1"]);
}

/// With 0 it is as `S`, and with any other number as `K`.
#[test]
fn panel_serves_by_any_number_as_by_letter() {
    let mut rng = Rng::new(1, 70);
    for command in COMMANDS {
        let frame = ask(1, command, &good_data(&mut rng, command));
        let with = |record: &[u8]| lines(&[b"F\x01", record].concat())[1][1..].to_string();
        let counted = by(0, &frame)[9..].to_vec();
        let [unsealed, sealed] = [b"S", b"K"].map(|letter| with(&[letter, &counted[..]].concat()));
        assert_eq!(with(&by(0, &frame)), unsealed);
        for bit in 0..64 {
            assert_eq!(with(&by(1 << bit, &frame)), sealed, "{command}, bit {bit}");
        }
    }
}

#[test]
fn panel_stops_at_a_record_cut_short_and_at_letters_of_the_probe() {
    assert!(lines(b"").is_empty());
    for whole in [&by(0, P1)[..], b"J\x00\x00\x00\x00\x00\x00\x00\x01"] {
        assert_ne!(lines(whole), ["?"]);
        for cut in 1..whole.len() {
            assert_eq!(lines(&whole[..cut]), ["?"]);
        }
    }
    for letter in 0..=255 {
        let known = b"FHJKLOPSWZ".contains(&letter);
        // No record, of the probe neither, needs more than this.
        let script = [vec![letter], vec![0; 10]].concat();
        let first = Records::new(&script).next();
        let is_broken = matches!(first, Some(Record::Shared(probe::Record::Broken)));
        assert_eq!(is_broken, !known, "{}", letter as char);
    }
}

#[test]
fn panel_reads_no_more_than_the_probe() {
    let mut long = by(0, &vec![b'0'; SCRIPT_MAX - 11]);
    assert_eq!(long.len(), SCRIPT_MAX);
    assert_eq!(lines(&long).len(), 1);
    long.extend(b"H\x00\x00\x00\x01");
    assert_eq!(lines(&long).len(), 1);
}

/// Scripts of the probe have the probe's lines where the panel's program knows
/// all their records, and up to the first that it does not know.
#[test]
fn panel_prints_the_probes_lines() {
    let (mut known, mut others) = (0, 0);
    for number in 0..probe_scripts::purposeful() + 10 {
        let (name, script) = probe_scripts::script(1, number);
        let (ours, probes) = (lines(&script), probe::lines(&script));
        if knows(&script) {
            assert_eq!(ours, probes, "{name}");
            known += 1;
        } else {
            let (last, before) = ours.split_last().expect("a line at the least");
            assert_eq!(last, "?", "{name}");
            assert_eq!(before, &probes[..before.len()], "{name}");
            others += 1;
        }
    }
    assert!(known > 100 && others > 50, "{known} and {others}");
}

#[test]
fn fixed_calls_of_the_panel_come_out_as_written() {
    for session in sessions() {
        let script = probe_scripts::fixed_calls(session);
        assert!(script.len() <= SCRIPT_MAX, "{}", session.name);
        // The first line is that of the fresh image.
        assert_eq!(
            lines(&script)[1..],
            session.probe_lines(),
            "{}",
            session.name
        );
    }
}

#[test]
fn drawn_scripts_of_the_panel_are_read_to_their_end() {
    let fixed = sessions().len();
    for seed in 0..8 {
        for number in fixed..fixed + 7 {
            let (name, script) = panel_scripts::script(seed, number);
            assert!(script.len() <= SCRIPT_MAX, "{name}: {}", script.len());
            assert!(lines(&script).iter().all(|line| line != "?"), "{name}");
        }
    }
}

/// A refused call lends nothing but zeros.
#[test]
fn refused_calls_have_zeros() {
    let mut refused = 0;
    for number in 0..panel_scripts::purposeful() + 20 {
        for line in lines(&panel_scripts::script(1, number).1) {
            let words: Vec<&str> = line.split(' ').collect();
            match words[..] {
                ["?"] | ["F", ..] | [_, "0", ..] => continue,
                ["Z" | "S" | "K", _, length, _, _] => assert_eq!(length, "0", "{line}"),
                ["H" | "J", _, parts, missing] => assert_eq!([parts, missing], ["0"; 2], "{line}"),
                _ => panic!("{line}"),
            }
            refused += 1;
        }
    }
    assert!(refused > 3_000, "{refused}");
}

#[test]
fn scripts_of_the_panel_are_counted_right() {
    let last = panel_scripts::purposeful();
    assert_eq!(panel_scripts::script(1, last - 1).0, "broken record");
    assert_eq!(panel_scripts::script(1, last).0, "calls by chance");
    let fixed = sessions().len();
    assert!(panel_scripts::is_fixed(fixed - 1) && !panel_scripts::is_fixed(fixed));
}
