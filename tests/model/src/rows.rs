//! The rows and rules the block is held to, one by one.

mod listener;
mod moves;
mod order;
mod panel;
mod quantity;
mod signatures;
mod table_file;

use crate::block::{build, fresh, held_parts, serve, take_apart, Refusal, Switch, IMAGE_BYTES};
use crate::fixed::temperatures::RISING;
use crate::streams::{
    ask, constants, either_case, errors, faulty_data, faulty_frames, frame, good_data,
    older_errors, part, piece, rung, session, Rng, COMMANDS, FIELDS, READING, WRITING,
};
use crate::{desk, desk_streams, fixed, probe, probe_scripts};

fn image_at(address: u8) -> Vec<u8> {
    let mut image = vec![0; IMAGE_BYTES];
    fresh(&mut image, address).expect("a right image");
    image
}

/// Serves a frame unsealed; gives the number and the reply up to its line end.
/// Checks on the way that nothing is touched that should not be.
fn put(image: &mut [u8], frame: &[u8]) -> (u8, String) {
    put_with(Switch::Unsealed, image, frame)
}

fn put_sealed(image: &mut [u8], frame: &[u8]) -> (u8, String) {
    put_with(Switch::Sealed, image, frame)
}

fn put_with(switch: Switch, image: &mut [u8], frame: &[u8]) -> (u8, String) {
    let before = image.to_vec();
    let mut output = [0x55; 300];
    match serve(switch, image, frame, &mut output) {
        Ok(length) => {
            if switch == Switch::Sealed {
                assert!(image == before, "a sealed call changed the image");
            }
            assert_eq!(&output[length - 2..length], b"\r\n");
            assert!(output[length..].iter().all(|&byte| byte == 0x55));
            (
                0,
                String::from_utf8_lossy(&output[..length - 2]).into_owned(),
            )
        }
        Err(refusal) => {
            assert!(image == before, "a refusal changed the image");
            assert_eq!(output, [0x55; 300], "a refusal changed the output");
            (refusal.number(), String::new())
        }
    }
}

/// Serves one row of the paper, given without its ends.
fn row(image: &mut [u8], text: &str) -> (u8, String) {
    put(image, format!("{text}\r\n").as_bytes())
}

fn number(image: &mut [u8], command: u8, data: &[u8]) -> u8 {
    put(image, &ask(1, command, data)).0
}

fn done(reply: &str) -> (u8, String) {
    (0, reply.to_string())
}

fn refused(number: u8) -> (u8, String) {
    (number, String::new())
}

#[test]
fn rows_on_a_fresh_image() {
    for (text, outcome) in [
        (":0132CD", done(":013200CD")),
        (":01330FBD", done(":01330FBD")),
        (":0132CE", refused(6)),
        (":0132cD", done(":013200CD")), // P4 as wish 2 amends it
        (":0232CC", refused(7)),
        (":0153AC", refused(8)),
        (":013608C1", refused(10)),
        (":013C0901B9", refused(10)),
        (":013D01C1", done(":013D010000C1")),
        (":013E0101140005A6", done(":013E01C0")),
        (":014CFFB4", done(":014CFFB4")),
        (":014C01B2", refused(11)),
        (":013C0B0CAC", refused(10)),
    ] {
        assert_eq!(row(&mut image_at(1), text), outcome, "{text}");
    }
}

#[test]
fn second_row_is_stored() {
    let mut image = image_at(1);
    row(&mut image, ":01330FBD");
    assert_eq!(image[6], 0x0F);
    image[6] = 0;
    assert!(image == image_at(1));
}

#[test]
fn rows_after_an_error_table() {
    let mut image = image_at(1);
    row(&mut image, ":013E0101140005A6");
    assert_eq!(row(&mut image, ":013F01BF"), done(":013F0101140005A5"));
    assert_eq!(row(&mut image, ":014001BE"), done(":014001001AA4"));
}

#[test]
fn longest_channel_gives_a_full_body() {
    let (number, reply) = row(&mut image_at(1), ":013607C2");
    assert_eq!((number, reply.len()), (0, 1 + 2 * 87));
    assert!(reply.starts_with(":01360700"));
}

#[test]
fn row_at_another_address() {
    assert_eq!(row(&mut image_at(0xCE), ":CE3200"), done(":CE320000"));
    assert_eq!(row(&mut image_at(1), ":CE3200"), refused(7));
}

#[test]
fn error_rows_by_temperature() {
    for (first, second, outcome) in [
        (0xFF, 0x00, 0),
        (0x00, 0xFF, 11),
        (0x14, 0x14, 11),
        (0x80, 0x7F, 11),
        (0x7F, 0x80, 0),
        (0x80, 0x81, 11),
        (0x81, 0x80, 0),
    ] {
        let data = [1, 2, first, 0, 1, second, 0, 2];
        assert_eq!(number(&mut image_at(1), 62, &data), outcome);
    }
}

#[test]
fn every_pair_of_temperatures_rises_as_written() {
    let mut image = image_at(1);
    for (earlier, &first) in RISING.iter().enumerate() {
        for (later, &second) in RISING.iter().enumerate() {
            let data = [1, 2, first, 0, 1, second, 0, 2];
            let outcome = if earlier < later { 0 } else { 11 };
            assert_eq!(number(&mut image, 62, &data), outcome, "{data:02X?}");
        }
    }
}

#[test]
fn temperatures_are_all_on_the_rungs_written() {
    for (place, &temperature) in RISING.iter().enumerate() {
        assert_eq!(usize::from(rung(temperature)), place);
    }
}

#[test]
fn error_tables_are_drawn_good_and_older_ones_are_not() {
    let mut rng = Rng::new(1, 13);
    for count in (2..=21).cycle().take(2_000) {
        let good = errors(&mut rng, 1, count);
        assert_eq!(number(&mut image_at(1), 62, &good), 0, "{good:02X?}");
        let older = older_errors(&mut rng, 1, count);
        assert_eq!((older[1], older[2]), (count, 0x80));
        assert!(older[2..].chunks(3).is_sorted_by_key(|row| row[0] as i8));
        assert_eq!(number(&mut image_at(1), 62, &older), 11, "{older:02X?}");
    }
}

#[test]
fn desk_prints_the_sample() {
    let lines = desk::lines(b":0132CD\r\n:01330FBD\r\n:0132CE\r\n");
    assert_eq!(lines, ["0 :013200CD", "0 :01330FBD", "6"]);
}

#[test]
fn desk_is_unsealed() {
    let mut rng = Rng::new(1, 18);
    for command in WRITING {
        let frame = ask(1, command, &good_data(&mut rng, command));
        let lines = desk::lines(&frame.repeat(2));
        assert!(lines.iter().all(|line| line.starts_with("0 :01")));
    }
}

#[test]
fn desk_takes_any_input() {
    assert!(desk::lines(b"").is_empty());
    assert_eq!(desk::lines(b"\n"), ["3"]);
    assert_eq!(desk::lines(b":0132CD\r\n\xFF"), ["0 :013200CD", "3"]);
    assert_eq!(desk::lines(&[b'\n'; 65_536]).len(), 65_536);
    assert_eq!(desk::lines(&[b'0'; 65_536]), ["3"]);
    assert_eq!(desk::lines(&[b'\n'; 65_537]), ["too long"]);
}

#[test]
fn building_and_taking_apart_undo_each_other() {
    let mut rng = Rng::new(1, 1);
    for count in 2..=132 {
        let contents = rng.bytes(count);
        let mut built = vec![9; 2 * count + 5];
        assert_eq!(build(&contents, &mut built), Ok(2 * count + 5));
        assert_eq!(built, frame(&contents));
        let mut output = [9; 133];
        assert_eq!(take_apart(&built, &mut output), Ok(count));
        assert_eq!(output[..count], contents);
        assert!(output[count..].iter().all(|&byte| byte == 9));
    }
}

#[test]
fn taking_apart_and_building_gives_capitals() {
    let mut rng = Rng::new(1, 10);
    for count in (2..=132).cycle().take(2_000) {
        let capitals = frame(&rng.bytes(count));
        let (mut contents, mut built) = ([0; 132], [0; 269]);
        let text = either_case(&mut rng, capitals.clone());
        assert_eq!(take_apart(&text, &mut contents), Ok(count));
        assert_eq!(build(&contents[..count], &mut built), Ok(2 * count + 5));
        assert_eq!(built[..2 * count + 5], capitals);
    }
}

/// A small letter a to f becomes its capital, all else stays.
fn capital_form(text: &[u8]) -> Vec<u8> {
    let capital = |&c: &u8| match c {
        b'a'..=b'f' => c - b'a' + b'A',
        _ => c,
    };
    text.iter().map(capital).collect()
}

#[test]
fn capital_form_is_served_alike() {
    let mut rng = Rng::new(1, 11);
    for address in [1, 0xCE, 0xAF] {
        let (mut image, mut other) = (image_at(address), image_at(address));
        for _ in 0..500 {
            for contents in session(&mut rng, address) {
                let text = piece(&mut rng, &contents);
                let text = either_case(&mut rng, text);
                let outcome = put(&mut image, &text);
                assert_eq!(put(&mut other, &capital_form(&text)), outcome);
                assert!(image == other);
            }
        }
    }
}

#[test]
fn digits_are_of_three_ranges() {
    for character in 0..=255 {
        let digit = matches!(character, 48..=57 | 65..=70 | 97..=102);
        for place in 1..=8 {
            let mut text = *b":01330FBD\r\n";
            text[place] = character;
            let apart = take_apart(&text, &mut [0; 132]);
            assert_eq!(apart == Err(Refusal::Digit), !digit);
            assert_eq!(put(&mut image_at(1), &text).0 == 5, !digit);
        }
    }
}

#[test]
fn small_letters_stand_for_ten_to_fifteen() {
    for (value, letter) in (10..=15).zip("abcdef".chars()) {
        for (text, byte) in [
            (format!("{letter}0"), 16 * value),
            (format!("0{letter}"), value),
        ] {
            let text = format!(":00{text}{:02X}\r\n", 256 - u16::from(byte));
            let mut contents = [9; 132];
            assert_eq!(take_apart(text.as_bytes(), &mut contents), Ok(2));
            assert_eq!(contents[..2], [0, byte]);
        }
    }
}

/// Wish 4 tests what is received by one total, document 01 computes what is
/// built by a rule of its own, and only the checksum built may be accepted.
#[test]
fn total_is_0_for_the_checksum_built_alone() {
    let mut rng = Rng::new(1, 12);
    let two = |first| (0..=255).map(move |second| vec![first, second]);
    let longer = (3..=132).map(|count| rng.bytes(count));
    let checksums: Vec<String> = (0..=255).map(|byte| format!("{byte:02X}")).collect();
    let (mut frame, mut output) = ([0; 269], [0; 132]);
    for contents in (0..=255).flat_map(two).chain(longer) {
        let length = build(&contents, &mut frame).expect("room for the longest");
        let frame = &mut frame[..length];
        let built = [frame[length - 4], frame[length - 3]];
        for checksum in &checksums {
            frame[length - 4..length - 2].copy_from_slice(checksum.as_bytes());
            let outcome = match checksum.as_bytes() == built {
                true => Ok(contents.len()),
                false => Err(Refusal::Checksum),
            };
            assert_eq!(take_apart(frame, &mut output), outcome);
        }
    }
}

#[test]
fn halves_are_sent_as_published() {
    let mut output = [0; 9];
    assert_eq!(build(&[0x4C, 0], &mut output), Ok(9));
    assert_eq!(output[1..3], [0x34, 0x43]);
}

#[test]
fn building_checks_its_contents_first() {
    for (count, room, outcome) in [
        (1, 0, Err(Refusal::Length)),
        (133, 0, Err(Refusal::Length)),
        (133, 400, Err(Refusal::Length)),
        (2, 8, Err(Refusal::Output)),
        (132, 268, Err(Refusal::Output)),
        (132, 269, Ok(269)),
    ] {
        assert_eq!(build(&vec![0; count], &mut vec![0; room]), outcome);
    }
}

#[test]
fn taking_apart_refuses_in_order() {
    for (text, outcome) in [
        (":0132CD\r", Err(Refusal::Length)),
        (";0132zz\rA", Err(Refusal::Ends)),
        (":0132zz\r\n", Err(Refusal::Digit)),
        (":0132@E\r\n", Err(Refusal::Digit)),
        (":0132gE\r\n", Err(Refusal::Digit)),
        (":0132CE\r\n", Err(Refusal::Checksum)),
        (":0132cE\r\n", Err(Refusal::Checksum)),
        (":0132cD\r\n", Ok(2)),
        (":FF9968\r\n", Ok(2)),
    ] {
        assert_eq!(take_apart(text.as_bytes(), &mut [0; 132]), outcome);
        let short = take_apart(text.as_bytes(), &mut [0; 131]);
        assert_eq!(short, Err(Refusal::Output));
    }
}

#[test]
fn frame_lengths_have_limits() {
    let mut rng = Rng::new(1, 2);
    for (count, outcome) in [(1, 3), (2, 8), (132, 8), (133, 3)] {
        let mut contents = rng.bytes(count);
        contents[0] = 1;
        if count > 1 {
            contents[1] = 99;
        }
        assert_eq!(put(&mut image_at(1), &frame(&contents)).0, outcome);
    }
}

#[test]
fn serving_refuses_in_order() {
    for switch in [Switch::Unsealed, Switch::Sealed] {
        let mut image = image_at(1);
        for frame in [":0132CD\r\n", ":01330FBD\r\n", ":0153AC\r\n", ""] {
            let short = serve(switch, &mut image, frame.as_bytes(), &mut [0; 268]);
            assert_eq!(short, Err(Refusal::Output));
        }
        image[5] = 0;
        for frame in [":01330FBD\r\n", ""] {
            let unusable = serve(switch, &mut image, frame.as_bytes(), &mut [0; 0]);
            assert_eq!(unusable, Err(Refusal::Image));
        }
    }
}

#[test]
fn sealed_writes_are_refused_whatever_their_data() {
    let mut rng = Rng::new(1, 15);
    for command in WRITING {
        for count in 0..=130 {
            let frame = ask(1, command, &rng.bytes(count));
            assert_eq!(put_sealed(&mut image_at(1), &frame), refused(16));
        }
    }
}

/// All that is not refused 16 is answered as it is unsealed on the same image.
#[test]
fn sealed_calls_differ_by_16_alone() {
    let mut rng = Rng::new(1, 16);
    for address in [1, 0xCE, 0xAF] {
        let mut image = image_at(address);
        for _ in 0..1_000 {
            for contents in session(&mut rng, address) {
                let text = piece(&mut rng, &contents);
                let sealed = put_sealed(&mut image, &text);
                let unsealed = put(&mut image, &text);
                let mut body = [0; 132];
                let apart = take_apart(&text, &mut body).is_ok();
                let writes = apart && body[0] == address && WRITING.contains(&body[1]);
                let expected = if writes { refused(16) } else { unsealed };
                assert_eq!(sealed, expected);
            }
        }
    }
}

#[test]
fn faults_are_drawn_as_promised() {
    let mut rng = Rng::new(1, 17);
    for command in COMMANDS.repeat(100) {
        let good = ask(1, command, &good_data(&mut rng, command));
        assert_eq!(put(&mut image_at(1), &good).0, 0);
        for (frame, number) in faulty_frames(&mut rng, &good).iter().zip(3..) {
            assert_eq!(put(&mut image_at(1), frame).0, number);
            assert_eq!(put_sealed(&mut image_at(1), frame).0, number);
        }
        let mut numbers = Vec::new();
        for data in faulty_data(&mut rng, command) {
            let frame = ask(1, command, &data);
            let number = put(&mut image_at(1), &frame).0;
            let sealed = match READING.contains(&command) {
                true => number,
                false => 16,
            };
            assert_eq!(put_sealed(&mut image_at(1), &frame).0, sealed);
            numbers.push(number);
        }
        let expected: &[u8] = match command {
            50 | 51 | 78 => &[9],
            53 => &[9, 10, 11, 11],
            54 | 55 | 61 | 63 | 64 => &[9, 10],
            59 | 60 => &[9, 10, 10],
            62 => &[9, 10, 10, 11],
            _ => &[9, 11],
        };
        assert_eq!(numbers, expected, "{command}");
    }
}

#[test]
fn fresh_image_has_its_length_and_its_address() {
    for (length, address, outcome) in [
        (IMAGE_BYTES - 1, 0, Err(Refusal::Image)),
        (IMAGE_BYTES + 1, 1, Err(Refusal::Image)),
        (IMAGE_BYTES, 0, Err(Refusal::Value)),
        (IMAGE_BYTES, 255, Ok(())),
    ] {
        let mut image = vec![7; length];
        assert_eq!(fresh(&mut image, address), outcome);
        if outcome.is_err() {
            assert!(image.iter().all(|&byte| byte == 7));
        }
    }
    let image = image_at(0xCE);
    assert_eq!(image[..6], *b"IZK\x00\x02\xCE");
    assert!(image[6..].iter().all(|&byte| byte == 0));
}

#[test]
fn only_some_bytes_make_an_image_unusable() {
    let mut judged: Vec<usize> = (0..5).collect();
    judged.extend((0..16).map(|table| 17 + 2 * table));
    judged.extend((0..8).map(|table| 713 + 64 * table));
    let good = image_at(1);
    for offset in 0..IMAGE_BYTES {
        let mut image = good.clone();
        image[offset] ^= 0xE8;
        let usable = held_parts(&image, 1).is_ok();
        assert_eq!(usable, !judged.contains(&offset), "offset {offset}");
    }
    for (offset, most) in [(17, 7), (713 + 64 * 7, 21)] {
        let mut image = good.clone();
        image[offset] = most;
        assert!(held_parts(&image, 1).is_ok());
        image[offset] = most + 1;
        assert_eq!(held_parts(&image, 1), Err(Refusal::Image));
        assert_eq!(held_parts(&image, 0), Err(Refusal::Image));
    }
}

#[test]
fn parts_are_counted_once() {
    let mut rng = Rng::new(1, 3);
    let mut image = image_at(1);
    assert_eq!(held_parts(&image, 12), Ok((0, 1)));
    for (written, held) in [
        (1, (1, 2)),
        (1, (1, 2)),
        (3, (2, 2)),
        (11, (3, 2)),
        (2, (4, 4)),
    ] {
        assert_eq!(number(&mut image, 59, &part(&mut rng, 12, written)), 0);
        assert_eq!(held_parts(&image, 12), Ok(held));
        assert_eq!(held_parts(&image, 2), Ok((0, 1)));
    }
    for written in 4..=10 {
        number(&mut image, 59, &part(&mut rng, 12, written));
    }
    assert_eq!(held_parts(&image, 12), Ok((11, 0)));
    assert_eq!(image[17 + 2 * 9..][..2], [0x07, 0xFF]);
}

#[test]
fn table_numbers_are_not_cut_short() {
    let image = image_at(1);
    for table in [
        0,
        9,
        10,
        19,
        258,
        268,
        65_538,
        1 << 24 | 2,
        u64::from(u32::MAX),
        1 << 32 | 2,
        1 << 63 | 12,
        u64::MAX,
    ] {
        assert_eq!(held_parts(&image, table), Err(Refusal::Item));
    }
}

#[test]
fn tables_lie_where_they_should() {
    let mut rng = Rng::new(1, 4);
    for (table, number_of_part, offset) in [
        (1, 1, 1225),
        (2, 1, 1225 + 1408),
        (8, 11, 1225 + 7 * 1408 + 1280),
        (11, 1, 1225 + 8 * 1408),
        (12, 1, 1225 + 9 * 1408),
        (18, 11, 23_753 - 128),
    ] {
        let data = part(&mut rng, table, number_of_part);
        let mut image = image_at(1);
        assert_eq!(number(&mut image, 59, &data), 0);
        assert_eq!(image[offset..offset + 128], data[2..]);
    }
}

#[test]
fn signature_of_a_full_table_is_a_remainder() {
    let mut image = image_at(1);
    for number_of_part in 1..=11 {
        let data = [vec![5, number_of_part], vec![255; 128]].concat();
        assert_eq!(number(&mut image, 59, &data), 0);
    }
    // 1,408 times 255 is 359,040, five times 65,536 and 31,360.
    let (_, reply) = put(&mut image, &ask(1, 61, &[5]));
    assert!(reply.starts_with(":013D057A80"));
}

#[test]
fn constants_keep_their_reserve_clear() {
    let mut rng = Rng::new(1, 5);
    let field = |byte| {
        FIELDS
            .iter()
            .any(|&(first, last)| (first..=last).contains(&byte))
    };
    for byte in 4..=86 {
        let mut data = constants(&mut rng, 7);
        data[byte - 3] = if byte == 7 { 13 } else { 200 };
        let outcome = if field(byte) { 0 } else { 11 };
        assert_eq!(number(&mut image_at(1), 53, &data), outcome, "byte {byte}");
    }
    for (gas, outcome) in [(0, 11), (1, 0), (13, 0), (14, 11)] {
        let mut data = constants(&mut rng, 0);
        data[4] = gas;
        assert_eq!(number(&mut image_at(1), 53, &data), outcome);
    }
}

#[test]
fn constants_lie_where_they_should() {
    let mut rng = Rng::new(1, 6);
    for channel in 0..8u8 {
        let data = constants(&mut rng, channel);
        let mut image = image_at(1);
        assert_eq!(number(&mut image, 53, &data), 0);
        let offset = 49 + 83 * usize::from(channel);
        assert_eq!(image[offset..offset + 83], data[1..]);
        assert_eq!(put(&mut image, &ask(1, 54, &[channel])), {
            let reply = String::from_utf8_lossy(&ask(1, 54, &data)).into_owned();
            done(reply.trim_end())
        });
    }
}

#[test]
fn error_tables_refuse_in_order() {
    for (data, outcome) in [
        (vec![1], 9),
        (vec![9, 0], 9),
        (vec![9, 9, 5, 0], 9),
        (errors(&mut Rng::new(1, 7), 9, 22), 9),
        (vec![0, 1, 5, 0, 0], 10),
        (vec![9, 1, 5, 0, 0], 10),
        (vec![1, 2, 5, 0, 0], 10),
        (vec![1, 1, 5, 0, 0, 4, 0, 0], 10),
        (vec![1, 2, 5, 0, 0, 4, 0, 0], 11),
        (errors(&mut Rng::new(1, 8), 8, 21), 0),
    ] {
        assert_eq!(number(&mut image_at(1), 62, &data), outcome, "{data:?}");
    }
}

#[test]
fn shorter_error_table_leaves_no_old_rows() {
    let mut rng = Rng::new(1, 9);
    let mut image = image_at(1);
    number(&mut image, 62, &errors(&mut rng, 8, 21));
    assert_eq!(number(&mut image, 62, &[8, 1, 0x14, 0, 5]), 0);
    assert_eq!(image[713 + 7 * 64..][..5], [1, 0x14, 0, 5, 0]);
    assert!(image[713 + 7 * 64 + 4..1225].iter().all(|&byte| byte == 0));
}

#[test]
fn clock_and_mode_lie_where_they_should() {
    let mut image = image_at(1);
    let clock = [59, 58, 23, 7, 31, 2, 99, 0, 0];
    assert_eq!(number(&mut image, 77, &clock), 0);
    assert_eq!(number(&mut image, 76, &[255]), 0);
    assert_eq!(image[7], 255);
    assert_eq!(image[8..17], clock);
    for (place, value) in [
        (0, 60),
        (2, 24),
        (3, 0),
        (3, 8),
        (4, 0),
        (5, 13),
        (6, 100),
        (8, 1),
    ] {
        let mut bad = clock;
        bad[place] = value;
        assert_eq!(number(&mut image, 77, &bad), 11);
    }
}

#[test]
fn stored_bytes_come_back_unjudged() {
    let mut image = image_at(1);
    image[8..17].fill(0xEE);
    let reply = format!(":014E{}53", "EE".repeat(9));
    assert_eq!(put(&mut image, &ask(1, 78, &[])), done(&reply));
    assert_eq!(put(&mut image, &ask(1, 63, &[1])), done(":013F0100BF"));
}

#[test]
fn probe_spells_its_answers() {
    let lines = probe::lines(
        b"L\x00\x00\x01P\x00\x00\x00\x05F\x01H\x00\x00\x00\x01O\x00\x00\x09T\x00\x00?F",
    );
    // The digest of one byte 5 is 257 + 6; that of no byte is 1.
    assert_eq!(lines, ["F 1 263", "H 1 0 0", "T 2 0 1", "?"]);
}

/// As the probe's paper has it, byte by byte.
#[test]
fn digest_is_a_remainder_at_each_byte() {
    let mut rng = Rng::new(1, 38);
    for length in (0..20).chain([23_753, 23_817, 24_000]) {
        for bytes in [rng.bytes(length), vec![255; length]] {
            let mut slow = 1;
            for &byte in &bytes {
                slow = (257 * slow + u64::from(byte) + 1) % 4_294_967_291;
            }
            assert_eq!(probe::digest(&bytes), slow);
        }
    }
}

#[test]
fn probe_serves_sealed_by_a_letter_of_its_own() {
    let nothing = b"L\x00\x00\x00O\x00\x00\x00K\x00\x00S\x00\x00k\x00\x00K\x00\x00";
    assert_eq!(probe::lines(nothing), ["K 1 0 1 1", "S 1 0 1 1", "?"]);
    let lines = probe::lines(b"F\x01K\x00\x09:0132CD\r\nS\x00\x09:0132CD\r\n");
    assert_eq!(lines[1].strip_prefix('K'), lines[2].strip_prefix('S'));
    assert!(lines[1].starts_with("K 0 11 "));
    let lines = probe::lines(b"F\x01K\x00\x0B:01330FBD\r\nS\x00\x0B:01330FBD\r\n");
    let fresh = lines[0].rsplit(' ').next().expect("a digest");
    assert!(lines[1].starts_with(&format!("K 16 0 {fresh} ")));
    assert!(lines[2].starts_with("S 0 11 "));
}

#[test]
fn probe_stops_at_a_record_cut_short() {
    assert!(probe::lines(b"").is_empty());
    assert_eq!(probe::lines(b"H\x00\x00\x00"), ["?"]);
    assert_eq!(probe::lines(b"S\x00\x02a"), ["?"]);
    assert_eq!(probe::lines(b"K\x00\x02a"), ["?"]);
    assert_eq!(probe::lines(b"W"), ["?"]);
    let mut long = b"B\xFF\xFD".to_vec();
    long.resize(65_536, 0);
    assert_eq!(probe::lines(&long).len(), 1);
    long.extend(b"H\x00\x00\x00\x01");
    assert_eq!(probe::lines(&long).len(), 1);
}

#[test]
fn fixed_calls_come_out_as_written() {
    for session in fixed::sessions() {
        let lines = probe::lines(&probe_scripts::fixed_calls(session));
        // The first line is that of the fresh image.
        assert_eq!(lines[1..], session.probe_lines(), "{}", session.name);
        if let Some(stream) = session.stream() {
            assert_eq!(desk::lines(&stream), session.desk_lines());
        }
    }
}

#[test]
fn scripts_with_a_purpose_are_counted_right() {
    let last = probe_scripts::purposeful();
    assert_eq!(probe_scripts::script(1, last - 1).0, "broken record");
    assert_eq!(probe_scripts::script(1, last).0, "calls by chance");
    let last = desk_streams::purposeful();
    assert_ne!(desk_streams::stream(1, last - 1).0, "sessions by chance");
    assert_eq!(desk_streams::stream(1, last).0, "sessions by chance");
}
