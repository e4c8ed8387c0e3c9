//! Document 02, wish 1: frames off a noisy line.

use crate::fixed::listener::hearings;
use crate::lines::{any_length, any_line, cut, in_quiet, loud, of_length, quiet, requests};
use crate::listener::since::{is_well_formed, Since};
use crate::listener::{Listener, ROOM};
use crate::probe::{self, digest};
use crate::probe_scripts;
use crate::streams::Rng;

const P1: &[u8] = b":0132CD\r\n";

/// Anything that a record can be, often about the limits and often with 0Dh
/// where that matters.
fn any_record(rng: &mut Rng) -> Listener {
    let mut room = [rng.pick(b"\r\n:0"); ROOM];
    if rng.percent(60) {
        room.copy_from_slice(&rng.bytes(ROOM));
    }
    let any = rng.below(300) as u64;
    let count = rng.pick(&[any, any, 0, 1, 268, 269, 270, 1 << 32, u64::MAX]);
    if (1..=269).contains(&count) && rng.percent(40) {
        room[count as usize - 1] = b'\r';
    }
    Listener {
        room,
        count,
        gathering: rng.percent(60),
    }
}

fn is_gathering(listener: &Listener) -> bool {
    listener.gathering && listener.count <= 269
}

/// All that is handed out by the bytes, with how many of them are then taken.
fn hear(listener: &mut Listener, line: &[u8]) -> Vec<(usize, Vec<u8>)> {
    let mut handed = Vec::new();
    for (taken, &byte) in (1..).zip(line) {
        if let Some(frame) = listener.take(byte) {
            handed.push((taken, frame.to_vec()));
        }
    }
    handed
}

/// What the wish wants shown.
#[test]
fn a_frame_is_handed_out_at_its_last_byte_whatever_came_before() {
    let mut rng = Rng::new(1, 60);
    for _ in 0..20_000 {
        let mut listener = any_record(&mut rng);
        let noise = any_line(&mut rng, 1);
        hear(&mut listener, &noise);
        let length = any_length(&mut rng).min(269);
        let frame = of_length(&mut rng, length);
        assert_eq!(hear(&mut listener, &frame), [(length, frame.clone())]);
        assert_eq!(listener.room[..length], frame);
        assert_eq!((listener.count, listener.gathering), (length as u64, false));
        // It is held until the next 3Ah.
        let held = listener.clone();
        let behind = quiet(&mut rng);
        assert!(hear(&mut listener, &behind).is_empty());
        assert_eq!(listener, held);
    }
}

#[test]
fn both_tellings_say_the_same() {
    let mut rng = Rng::new(1, 61);
    let (mut frames, mut none) = (0, 0);
    for _ in 0..5_000 {
        let mut listener = any_record(&mut rng);
        let mut since: Option<Since> = None;
        for byte in any_line(&mut rng, 1) {
            match (byte, &mut since) {
                (b':', _) => since = Some(Since::start(&listener.room)),
                (_, Some(since)) => since.push(byte),
                _ => {}
            }
            let handed = listener.take(byte).map(<[u8]>::to_vec);
            if let Some(since) = &since {
                assert_eq!(handed.as_deref(), since.handed_out());
                assert_eq!(listener, since.record());
                match handed {
                    Some(_) => frames += 1,
                    None => none += 1,
                }
            }
        }
    }
    assert!(frames > 5_000 && none > 100_000, "{frames} and {none}");
}

/// A 3Ah changes the first byte, and a byte that is gathered the one behind
/// those gathered before.
#[test]
fn no_other_byte_of_the_room_changes() {
    let mut rng = Rng::new(1, 62);
    for _ in 0..200_000 {
        let before = any_record(&mut rng);
        let byte = match rng.percent(70) {
            true => rng.pick(b":\r\n0"),
            false => rng.byte(),
        };
        let mut after = before.clone();
        let handed = after.take(byte).is_some();
        let place = match byte {
            b':' => Some(0),
            _ if is_gathering(&before) && before.count < 269 => Some(before.count as usize),
            _ => None,
        };
        if let Some(place) = place {
            assert_eq!(after.room[place], byte);
            assert_eq!(after.count, place as u64 + 1);
            assert_eq!(after.gathering, !handed);
            after.room[place] = before.room[place];
        }
        assert_eq!(after.room, before.room);
        if place.is_none() && !is_gathering(&before) {
            assert_eq!(after, before);
        } else if place.is_none() {
            assert_eq!((after.count, after.gathering), (0, false));
        }
        assert!(!handed || byte == b'\n');
    }
}

#[test]
fn limits_are_at_269() {
    let run = |length: usize| [&b":"[..], &vec![b'0'; length - 3], b"\r\n"].concat();
    for length in 3..=300 {
        let (mut listener, run) = (Listener::new(), run(length));
        let handed = hear(&mut listener, &run);
        match length {
            ..=269 => assert_eq!(handed, [(length, run)]),
            _ => assert!(handed.is_empty() && listener.count == 0 && !listener.gathering),
        }
    }
    let mut listener = Listener::new();
    assert!(hear(&mut listener, &run(270)[..269]).is_empty());
    assert_eq!((listener.count, listener.gathering), (269, true));
    assert_eq!(hear(&mut listener.clone(), b"\n"), []);
    assert_eq!(hear(&mut listener, b":\r\n"), [(3, b":\r\n".to_vec())]);
}

#[test]
fn a_first_byte_has_none_before_it() {
    let mut listener = Listener {
        room: [b'\r'; ROOM],
        count: 0,
        gathering: true,
    };
    assert_eq!(listener.take(b'\n'), None);
    assert_eq!((listener.count, listener.gathering), (1, true));
    assert_eq!(listener.room[..2], *b"\n\r");
    assert_eq!(hear(&mut listener, b"\r\n"), [(2, b"\n\r\n".to_vec())]);
}

#[test]
fn frames_are_well_formed_as_written() {
    for good in [&b":\r\n"[..], b":\n\r\n", b":\r\r\n", b":0\n\r\r\n", P1] {
        assert!(is_well_formed(good), "{good:?}");
    }
    for bad in [
        &b""[..],
        b":",
        b"\r\n",
        b":\r",
        b":\n",
        b"0\r\n",
        b"::\r\n",
        b":0:\r\n",
        b":\r\n\r\n",
        b":\r\n0",
        b":0132CD\r\n\n",
    ] {
        assert!(!is_well_formed(bad), "{bad:?}");
    }
    assert!(is_well_formed(&of_length(&mut Rng::new(1, 63), 269)));
    assert!(!is_well_formed(&of_length(&mut Rng::new(1, 63), 270)));
}

#[test]
fn lines_are_drawn_as_promised() {
    let mut rng = Rng::new(1, 64);
    let (mut loudest, mut longest) = (0, 0);
    for _ in 0..2_000 {
        let noise = quiet(&mut rng);
        assert!(!noise.contains(&b':'));
        longest = longest.max(noise.len());
        loudest += usize::from(loud(&mut rng, 1).contains(&b':'));
        let length = 3 + rng.below(300);
        let frame = of_length(&mut rng, length);
        assert_eq!(
            (frame.len(), is_well_formed(&frame)),
            (length, length <= 269)
        );
        assert!(requests(&mut rng, 1)
            .iter()
            .all(|frame| is_well_formed(frame)));
        let line = any_line(&mut rng, 1);
        assert_eq!(cut(&mut rng, &line).concat(), line);
    }
    assert!(longest > 269 && loudest > 1_500, "{longest} and {loudest}");
}

/// A record with a letter and a count before its bytes.
fn counted(letter: u8, bytes: &[u8]) -> Vec<u8> {
    let length = bytes.len() as u16;
    [&[letter], &length.to_be_bytes()[..], bytes].concat()
}

/// Wherever the noise is, the frames are answered as if they came alone.
#[test]
fn noise_without_3ah_changes_no_answer() {
    let mut rng = Rng::new(1, 65);
    let mut served = 0;
    for _ in 0..300 {
        let mut script = b"F\x01".to_vec();
        let mut alone = script.clone();
        for _ in 0..3 {
            let list = requests(&mut rng, 1);
            // Over-full, whatever the flag says, or not gathering by its flag.
            script.extend(rng.pick(&[b"R\x01\0\0\0\0\0\0\x01\x0E", b"R\0\0\0\0\0\0\0\0\x09"]));
            script.extend(counted(b'V', &in_quiet(&mut rng, &list)));
            for frame in &list {
                alone.extend(counted(b'S', frame));
            }
        }
        let mut lines = probe::lines(&script);
        lines.retain(|line| !line.starts_with(['G', 'V']));
        assert_eq!(lines, probe::lines(&alone));
        served += lines.len() - 1;
    }
    assert!(served > 1_000, "only {served} frames");
}

#[test]
fn fixed_lines_come_out_as_written() {
    for hearing in hearings() {
        let lines = probe::lines(&probe_scripts::fixed_lines(hearing));
        // The first line is that of the fresh image.
        let written = hearing.probe_lines().concat();
        assert_eq!(lines[1..], written, "{}", hearing.name);
    }
}

#[test]
fn probe_spells_what_a_listener_does() {
    let room = |bytes: &[u8]| {
        let mut room = [0; ROOM];
        room[..bytes.len()].copy_from_slice(bytes);
        digest(&room)
    };
    let script = b"N\0\0N\0\x0C\r\n:0132CD\r\n0N\0\x02:\nN\0\x07\r\n:\r\n:\r";
    let lines = [
        format!("N 0 0 {}", room(b"")),
        format!("G 11 9 {}", digest(P1)),
        format!("N 9 0 {}", room(P1)),
        format!("N 2 1 {}", room(b":\n132CD\r\n")),
        format!("G 2 4 {}", digest(b":\n\r\n")),
        format!("G 5 3 {}", digest(b":\r\n")),
        format!("N 2 1 {}", room(b":\r\n\n2CD\r\n")),
    ];
    assert_eq!(probe::lines(script), lines);
}

#[test]
fn probe_sets_the_record() {
    let mut room = [7; ROOM];
    (room[0], room[268]) = (8, 9);
    let script = b"Y\x07Q\0\0\x08Q\x01\x0C\x09Q\x01\x0D\x0AQ\xFF\xFF\x0AR\x80\xFF\xFF\xFF\xFF\xFF\xFF\xFF\xFFN\0\x02\r\n\
        R\0\0\0\0\0\0\0\x01\x0EN\0\0N\0\x01:";
    let mut lines = vec![
        format!("N 18446744073709551615 1 {}", digest(&room)),
        format!("N 270 0 {}", digest(&room)),
    ];
    room[0] = b':';
    lines.push(format!("N 1 1 {}", digest(&room)));
    assert_eq!(probe::lines(script), lines);
}

#[test]
fn probe_serves_off_the_line() {
    let lines = probe::lines(b"F\x01V\0\x18:01330FBD\r\n00:0132CD\r\n:\r");
    let alone = probe::lines(b"F\x01S\0\x0B:01330FBD\r\nS\0\x09:0132CD\r\n");
    assert_eq!(
        [&lines[0], &lines[2], &lines[4]],
        [&alone[0], &alone[1], &alone[2]]
    );
    assert!(lines[1].starts_with("G 11 11 ") && lines[3].starts_with("G 22 9 "));
    assert!(lines[5].starts_with("V 2 1 ") && lines.len() == 6);
    // Nothing of a record that is cut short is done.
    assert_eq!(probe::lines(b"N\0\x0A:0132CD\r\n"), ["?"]);
    assert_eq!(probe::lines(b"R\x01\0\0\0\0\0\0\0"), ["?"]);
}
