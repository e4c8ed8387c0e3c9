//! Document 02, wish 7: the signatures that are kept in the image.

use super::{image_at, number, put, put_sealed};
use crate::block::{fresh, held_parts, serve, take_apart, Refusal, Switch, IMAGE_BYTES};
use crate::compare::{desk_calls, probe_calls};
use crate::coverage::Came;
use crate::items::{item, Item, ITEMS, WORDS};
use crate::streams::{
    ask, errors, faulty_data, faulty_frames, good_data, part, piece, session, Rng, COMMANDS,
    READING, WRITING,
};
use crate::{desk_streams, probe_scripts};

/// A usable image with bytes by chance in all items and with any words.
pub fn changed_image(rng: &mut Rng) -> Vec<u8> {
    let mut image = image_at(1);
    for item in &ITEMS {
        let bytes = rng.bytes(item.bytes);
        image[item.offset..][..item.bytes].copy_from_slice(&bytes);
        if item.commands[0] == 62 {
            image[item.offset] = rng.between(0, 21);
        }
    }
    for table in 0..16 {
        image[17 + 2 * table] = rng.between(0, 7);
        image[18 + 2 * table] = rng.byte();
    }
    image[WORDS].copy_from_slice(&rng.bytes(64));
    image
}

/// By how much each word is more than the full sum of its item.
fn amounts(image: &[u8]) -> Vec<u16> {
    let amount = |item: &Item| {
        let full_sum = item.full_sum(image);
        item.stored(image).wrapping_sub(full_sum)
    };
    ITEMS.iter().map(amount).collect()
}

#[test]
fn items_lie_one_behind_the_other() {
    let mut places: Vec<_> = ITEMS.iter().map(|item| (item.offset, item.bytes)).collect();
    places.sort();
    let mut end = 49;
    for (offset, bytes) in places {
        assert_eq!(offset, end);
        end += bytes;
    }
    assert_eq!(end, WORDS.start);
    assert!(ITEMS.iter().map(|item| item.word).eq(WORDS.step_by(2)));
    assert_eq!(WORDS.end, IMAGE_BYTES);
    for (command, number, offset, word) in [
        (61, 1, 1225, 23_753),
        (61, 2, 1225 + 1408, 23_755),
        (61, 12, 1225 + 9 * 1408, 23_753 + 2 * 9),
        (55, 0, 49, 23_753 + 2 * 16),
        (64, 1, 713, 23_753 + 2 * 24),
        (64, 8, 713 + 7 * 64, 23_815),
    ] {
        let item = item(command, number).expect("an item");
        assert_eq!((item.offset, item.word), (offset, word));
    }
}

/// Each word is the full sum of its item, and so is what was answered.
fn hold_to_full_sums(came: &Came) {
    for item in &ITEMS {
        let (stored, full_sum) = (item.stored(came.image), item.full_sum(came.image));
        assert_eq!(stored, full_sum, "{} at {}", came.line, item.word);
    }
    let (mut asked, mut reply) = ([0; 132], [0; 132]);
    let text = [came.reply, b"\r\n"].concat();
    // No other reply has as many bytes.
    if matches!(came.call, 'd' | 'S' | 'K')
        && came.number == 0
        && take_apart(came.input, &mut asked).is_ok()
        && take_apart(&text, &mut reply) == Ok(5)
    {
        let item = item(asked[1], asked[2]).expect("an item was asked");
        let answer = u16::from_be_bytes([reply[3], reply[4]]);
        assert_eq!(answer, item.full_sum(came.image), "{}", came.line);
    }
}

/// The theorem of wish 7, for every image that these streams and scripts reach
/// from a fresh one by calls alone, and from one that was moved up (wish 8).
#[test]
fn words_are_full_sums_on_every_image_reached() {
    for number in 0..desk_streams::purposeful() + 20 {
        let (_, stream) = desk_streams::stream(7, number);
        desk_calls(&stream, true, hold_to_full_sums);
    }
    let mut calls = 0;
    for number in 0..probe_scripts::purposeful() + 100 {
        let (_, script) = probe_scripts::script(7, number);
        let (mut reached, mut moved_up) = (None, None);
        probe_calls(&script, true, |came| {
            let laid_out = (came.call, came.number) == ('F', 0);
            let before = Some(came.image_before);
            let by_calls = reached.as_deref() == before || moved_up.as_deref() == before;
            reached = (laid_out || by_calls).then(|| came.image.to_vec());
            let up = (came.call, came.number) == ('U', 0);
            moved_up = up.then(|| came.second.to_vec());
            if reached.is_some() {
                hold_to_full_sums(came);
                calls += 1;
            }
        });
    }
    assert!(calls > 10_000, "only {calls} calls");
}

#[test]
fn false_words_stay_false_by_the_same_amount() {
    let mut rng = Rng::new(1, 20);
    for _ in 0..30 {
        let mut image = changed_image(&mut rng);
        let before = amounts(&image);
        for _ in 0..50 {
            for contents in session(&mut rng, 1) {
                let text = piece(&mut rng, &contents);
                put(&mut image, &text);
                put_sealed(&mut image, &text);
                assert_eq!(amounts(&image), before);
            }
        }
    }
}

/// By the places of document 01, with one word that is false and one write
/// over another.
#[test]
fn false_word_of_an_error_table_is_amended_by_the_rows_that_vanish() {
    let mut rng = Rng::new(1, 21);
    let mut image = image_at(1);
    image[23_815..].copy_from_slice(&[0xAB, 0xCD]);
    let long = errors(&mut rng, 8, 21);
    assert_eq!(number(&mut image, 62, &long), 0);
    let sum: u16 = long[1..].iter().map(|&byte| u16::from(byte)).sum();
    let word = 0xABCDu16.wrapping_add(sum);
    assert_eq!(image[23_815..], word.to_be_bytes());
    assert_eq!(number(&mut image, 62, &[8, 1, 0x14, 0, 5]), 0);
    assert_eq!(image[23_815..], [0xAB, 0xE7]);
    let (_, reply) = put(&mut image, b":014008B7\r\n");
    assert_eq!(reply, ":014008ABE725");
}

/// What names the cell that a write changes.
fn cell(command: u8, data: &[u8]) -> Vec<u8> {
    match command {
        59 => vec![command, data[0], data[1]],
        53 | 62 => vec![command, data[0]],
        _ => vec![command],
    }
}

#[test]
fn parts_in_either_order_leave_the_same_image() {
    let mut rng = Rng::new(1, 22);
    for table in (1..=8).chain(11..=18) {
        for fresh in [true, false] {
            let mut image = match fresh {
                true => image_at(1),
                false => changed_image(&mut rng),
            };
            let mut other = image.clone();
            let first = rng.between(1, 11);
            let second = 1 + first % 11;
            let one = part(&mut rng, table, first);
            let two = part(&mut rng, table, second);
            for (image, order) in [(&mut image, [&one, &two]), (&mut other, [&two, &one])] {
                for data in order {
                    assert_eq!(number(image, 59, data), 0);
                }
            }
            assert!(image == other, "table {table}");
        }
    }
}

#[test]
fn writes_of_two_cells_in_either_order_leave_the_same_image() {
    let mut rng = Rng::new(1, 23);
    for _ in 0..2_000 {
        let writes = [(); 2].map(|()| {
            let command = rng.pick(&[53, 59, 59, 62, 51, 76, 77]);
            (command, good_data(&mut rng, command))
        });
        let [one, two] = &writes;
        if cell(one.0, &one.1) == cell(two.0, &two.1) {
            continue;
        }
        let mut image = changed_image(&mut rng);
        let mut other = image.clone();
        for (image, order) in [(&mut image, [one, two]), (&mut other, [two, one])] {
            for (command, data) in order {
                assert_eq!(number(image, *command, data), 0);
            }
        }
        assert!(image == other, "{writes:02X?}");
    }
}

#[test]
fn a_write_changes_its_cell_and_its_word_alone() {
    let mut rng = Rng::new(1, 24);
    for command in WRITING.repeat(200) {
        let data = good_data(&mut rng, command);
        let before = changed_image(&mut rng);
        let mut image = before.clone();
        assert_eq!(number(&mut image, command, &data), 0);
        let mut allowed = vec![false; IMAGE_BYTES];
        match (command, item(command, data[0])) {
            (51, _) => allowed[6] = true,
            (76, _) => allowed[7] = true,
            (77, _) => allowed[8..17].fill(true),
            (59, Some(table)) => {
                let part = usize::from(data[1] - 1);
                allowed[table.offset + 128 * part..][..128].fill(true);
                allowed[17 + table.word - WORDS.start..][..2].fill(true);
                allowed[table.word..][..2].fill(true);
            }
            (_, item) => {
                let item = item.expect("good data");
                allowed[item.offset..][..item.bytes].fill(true);
                allowed[item.word..][..2].fill(true);
            }
        }
        for (offset, allowed) in allowed.into_iter().enumerate() {
            assert!(allowed || image[offset] == before[offset], "at {offset}");
        }
    }
}

#[test]
fn other_calls_leave_every_word() {
    let mut rng = Rng::new(1, 25);
    for command in COMMANDS.repeat(30) {
        let mut image = changed_image(&mut rng);
        let words = image[WORDS].to_vec();
        let good = ask(1, command, &good_data(&mut rng, command));
        assert_ne!(put_sealed(&mut image, &good).0, 1);
        if READING.contains(&command) || [51, 76, 77].contains(&command) {
            assert_eq!(put(&mut image, &good).0, 0);
        }
        for frame in faulty_frames(&mut rng, &good) {
            assert!((3..=6).contains(&put(&mut image, &frame).0));
        }
        for data in faulty_data(&mut rng, command) {
            assert!((9..=11).contains(&number(&mut image, command, &data)));
            assert_eq!(put(&mut image, &ask(2, command, &data)).0, 7);
        }
        assert_eq!(image[WORDS], words);
    }
}

#[test]
fn words_are_answered_as_they_stand_whatever_the_bytes() {
    let mut rng = Rng::new(1, 26);
    for item in &ITEMS {
        let command = item.commands[2];
        for word in [0x0000, 0x0001, 0x00FF, 0x0100, 0x7FFF, 0x8000, 0xFFFFu16] {
            let mut image = changed_image(&mut rng);
            image[item.word..][..2].copy_from_slice(&word.to_be_bytes());
            let asked = ask(1, command, &[item.number]);
            let outcome = put(&mut image, &asked);
            let text = format!(":01{command:02X}{:02X}{word:04X}", item.number);
            assert!(outcome.1.starts_with(&text), "{outcome:?}");
            assert_eq!(put_sealed(&mut image, &asked), outcome);
            let row_count = usize::from(command == 64);
            let bytes = rng.bytes(item.bytes - row_count);
            image[item.offset + row_count..][..bytes.len()].copy_from_slice(&bytes);
            assert_eq!(put(&mut image, &asked), outcome);
        }
    }
}

#[test]
fn words_are_not_judged() {
    let mut rng = Rng::new(1, 27);
    for byte in 0..=255 {
        let mut image = image_at(1);
        image[WORDS].fill(byte);
        assert_eq!(held_parts(&image, 12), Ok((0, 1)));
        for command in COMMANDS {
            let data = good_data(&mut rng, command);
            assert_eq!(number(&mut image, command, &data), 0);
        }
    }
}

#[test]
fn version_2_and_its_length_alone_are_usable() {
    for version in 0..=0xFFFFu16 {
        let mut image = image_at(1);
        image[3..5].copy_from_slice(&version.to_be_bytes());
        assert_eq!(held_parts(&image, 1).is_ok(), version == 2);
    }
    for (version, length) in [
        (1, 23_753),
        (2, 23_753),
        (1, 23_817),
        (2, 23_752),
        (2, 23_816),
        (2, 23_818),
        (2, 24_000),
    ] {
        let mut image = image_at(1);
        image[4] = version;
        image.resize(length, 0);
        let before = image.clone();
        for switch in [Switch::Unsealed, Switch::Sealed] {
            let served = serve(switch, &mut image, b":01330FBD\r\n", &mut [0; 269]);
            assert_eq!(served, Err(Refusal::Image));
        }
        assert_eq!(held_parts(&image, 1), Err(Refusal::Image));
        if length != IMAGE_BYTES {
            assert_eq!(fresh(&mut image, 1), Err(Refusal::Image));
        }
        assert!(image == before);
    }
}
