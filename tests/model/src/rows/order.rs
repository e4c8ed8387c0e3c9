//! Document 02, wish 14: order, with repeats.

use super::signatures::changed_image;
use super::{image_at, put_with};
use crate::block::{Switch, IMAGE_BYTES};
use crate::cells::{Cell, Deed};
use crate::compare::{desk_calls, probe_calls};
use crate::fixed;
use crate::items::WORDS;
use crate::order::drawn::{clashing, deeds, Field};
use crate::order::lists::{List, Lists, Pair};
use crate::order::{draw, keeps, last_writes, ordered};
use crate::probe_scripts;
use crate::streams::{
    ask, faulty_data, faulty_frames, good_data, part, piece, session, Rng, COMMANDS, WRITING,
};

const SWITCHES: [Switch; 2] = [Switch::Unsealed, Switch::Sealed];

/// The number and the reply of each frame in turn, and the image that they leave.
type Outcome = (Vec<(u8, String)>, Vec<u8>);

fn serve_all(switch: Switch, start: &[u8], list: &[Vec<u8>]) -> Outcome {
    let mut image = start.to_vec();
    let serve = |frame: &Vec<u8>| put_with(switch, &mut image, frame);
    let answers = list.iter().map(serve).collect();
    (answers, image)
}

/// The same in another order, each frame at its place again.
fn serve_in(switch: Switch, start: &[u8], list: &[Vec<u8>], order: &[usize]) -> Outcome {
    let (answers, image) = serve_all(switch, start, &ordered(list, order));
    let mut placed = vec![(0, String::new()); list.len()];
    for (&place, answer) in order.iter().zip(answers) {
        placed[place] = answer;
    }
    (placed, image)
}

/// A fresh image, or one with bytes and false words in every item, at this
/// address.
fn any_image(rng: &mut Rng, address: u8) -> Vec<u8> {
    let mut image = match rng.percent(30) {
        true => image_at(address),
        false => changed_image(rng),
    };
    image[5] = address;
    image
}

fn unsealed(frame: &[u8]) -> Deed {
    Deed::new(Switch::Unsealed, 1, frame)
}

#[test]
fn cells_are_195_and_share_no_byte() {
    assert_eq!(Cell::all().count(), 195);
    let (mut bytes, mut bits) = (vec![0; IMAGE_BYTES], vec![0; IMAGE_BYTES]);
    for cell in Cell::all() {
        bytes[cell.place()].iter_mut().for_each(|count| *count += 1);
        if let Some((byte, bit)) = cell.bit() {
            assert_eq!(bits[byte] & bit, 0, "{cell:?}");
            bits[byte] |= bit;
        }
    }
    for (offset, count) in bytes.into_iter().enumerate() {
        let once = (6..17).contains(&offset) || (49..WORDS.start).contains(&offset);
        assert_eq!(count, u8::from(once), "at {offset}");
    }
    // Eleven bits in each of the sixteen words.
    assert_eq!(bits[17..49], [0x07, 0xFF].repeat(16));
    assert_eq!(Cell::Part(12, 3).place(), 14_153..14_281);
    assert_eq!(Cell::Part(12, 3).bit(), Some((36, 0x04)));
    assert_eq!(Cell::Part(18, 11).place().end, WORDS.start);
    assert_eq!(Cell::Part(18, 11).bit(), Some((47, 0x04)));
}

#[test]
fn frames_do_what_the_paper_says() {
    let none = Deed::default();
    for (text, reads) in [
        (":0132CD", Cell::Mask),
        (":0132cd", Cell::Mask),
        (":013607C2", Cell::Constants(7)),
        (":013707C1", Cell::Constants(7)),
        (":013C0C0BAC", Cell::Part(12, 11)),
        (":013F01BF", Cell::Errors(1)),
        (":014001BE", Cell::Errors(1)),
        (":014EB1", Cell::Clock),
    ] {
        let deed = unsealed(format!("{text}\r\n").as_bytes());
        assert_eq!((deed.reads, deed.writes), (vec![reads], None), "{text}");
    }
    let all: Vec<Cell> = (1..=11).map(|part| Cell::Part(1, part)).collect();
    assert_eq!(unsealed(b":013D01C1\r\n").reads, all);
    let writes = |text: &str| unsealed(format!("{text}\r\n").as_bytes()).writes;
    assert_eq!(writes(":01330FBD"), Some((Cell::Mask, vec![0x0F])));
    assert_eq!(writes(":014CFFB4"), Some((Cell::Mode, vec![0xFF])));
    let table = [&[1, 0x14, 0, 5], &[0; 60][..]].concat();
    assert_eq!(writes(":013E0101140005A6"), Some((Cell::Errors(1), table)));
    for text in [
        ":0132CE",
        ":0232CC",
        ":0153AC",
        ":013608C1",
        ":013C0901B9",
        ":014C01B2",
        ":013C0B0CAC",
        ":CE3200",
        ":01gECD",
        "",
    ] {
        assert_eq!(unsealed(format!("{text}\r\n").as_bytes()), none, "{text}");
    }
    let sealed = |text: &[u8]| Deed::new(Switch::Sealed, 1, text);
    assert_eq!(sealed(b":01330FBD\r\n"), none);
    assert_eq!(sealed(b":0132CD\r\n").reads, [Cell::Mask]);
}

/// Frames of all kinds for an address, good and bad ones.
fn any_frames(rng: &mut Rng, address: u8) -> Vec<Vec<u8>> {
    let mut frames = Vec::new();
    for contents in session(rng, address) {
        frames.push(piece(rng, &contents));
    }
    for command in COMMANDS {
        let good = ask(address, command, &good_data(rng, command));
        frames.extend(faulty_frames(rng, &good));
        frames.push(good);
        for data in faulty_data(rng, command) {
            frames.push(ask(address, command, &data));
        }
        frames.push(ask(!address, command, &good_data(rng, command)));
    }
    frames
}

/// What a frame does is told without an image. It is accepted if it does
/// anything, and leaves what it writes and nothing else.
#[test]
fn a_frame_is_accepted_if_it_does_anything() {
    let mut rng = Rng::new(1, 40);
    for address in [1, 0xCE, 255].repeat(8) {
        let start = any_image(&mut rng, address);
        for frame in any_frames(&mut rng, address) {
            for switch in SWITCHES {
                let deed = Deed::new(switch, address, &frame);
                let mut image = start.clone();
                let (number, _) = put_with(switch, &mut image, &frame);
                assert_eq!(number == 0, deed != Deed::default(), "{frame:?}");
                assert!(image == last_writes(&start, &[deed]), "{frame:?}");
            }
        }
    }
}

/// The theorem of wish 14, for lists with repeats and refused frames, with the
/// switch in either position, on fresh images and on any others.
#[test]
fn an_order_that_keeps_what_clashes_changes_nothing() {
    let mut rng = Rng::new(1, 41);
    let mut moved = 0;
    for round in 0..400 {
        let address = rng.pick(&[1, 0xCE, 255]);
        let field = Field::new(&mut rng, address);
        let count = 1 + rng.below(40);
        let mut list = field.list(&mut rng, count);
        if round % 4 == 0 {
            list.extend(field.repeated(&mut rng, WRITING[round / 4 % 6]));
        }
        let start = any_image(&mut rng, address);
        for switch in SWITCHES {
            let deeds = deeds(switch, address, &list);
            let outcome = serve_all(switch, &start, &list);
            assert!(outcome.1 == last_writes(&start, &deeds));
            for _ in 0..2 {
                let order = draw(&mut rng, &deeds);
                assert!(keeps(&deeds, &order));
                moved += usize::from(!order.is_sorted());
                assert!(serve_in(switch, &start, &list, &order) == outcome);
            }
        }
    }
    assert!(moved > 1_000, "only {moved} orders");
}

/// On the way, too, each cell holds the last write so far.
#[test]
fn the_last_writes_so_far_are_held_on_the_way() {
    let mut rng = Rng::new(1, 42);
    for _ in 0..40 {
        let field = Field::new(&mut rng, 1);
        let list = field.list(&mut rng, 30);
        let start = any_image(&mut rng, 1);
        let mut image = start.clone();
        let deeds = deeds(Switch::Unsealed, 1, &list);
        for (place, frame) in list.iter().enumerate() {
            put_with(Switch::Unsealed, &mut image, frame);
            assert!(image == last_writes(&start, &deeds[..=place]));
        }
    }
}

/// By the numbers of document 01: part 3 of table 12 twice, a false word, and an
/// error table that becomes shorter.
#[test]
fn last_writes_are_as_added_up_by_hand() {
    let mut start = image_at(1);
    start[23_771..23_773].copy_from_slice(&[0xFF, 0xF0]);
    start[14_153] = 0x10;
    let sent = |byte| ask(1, 59, &[&[12, 3], &[byte; 128][..]].concat());
    let long = [8, 2, 0x14, 0, 5, 0x15, 0, 6];
    let list = [
        sent(0xFF),
        ask(1, 62, &long),
        sent(0x01),
        ask(1, 62, &[8, 1, 0x14, 0, 5]),
        ask(1, 76, &[0x01]),
    ];
    let deeds = deeds(Switch::Unsealed, 1, &list);
    let image = last_writes(&start, &deeds);
    // 128 came and 16 left: FFF0h and 70h is 60h.
    assert_eq!(image[23_771..23_773], [0x00, 0x60]);
    assert_eq!(image[14_153..14_281], [0x01; 128]);
    assert_eq!(image[35..37], [0x00, 0x04]);
    assert_eq!(image[1161..1166], [1, 0x14, 0, 5, 0]);
    assert_eq!(image[23_815..], [0x00, 0x1A]);
    assert_eq!(image[7], 0x00);
    assert!(serve_all(Switch::Unsealed, &start, &list).1 == image);
}

fn all_orders(count: usize) -> Vec<Vec<usize>> {
    let mut orders = vec![Vec::new()];
    for place in 0..count {
        let with = |order: &Vec<usize>| {
            let put = |at| [&order[..at], &[place], &order[at..]].concat();
            (0..=order.len()).map(put).collect::<Vec<_>>()
        };
        orders = orders.iter().flat_map(with).collect();
    }
    orders
}

/// Every order of short lists: those that keep what clashes are drawn, and they
/// alone, and they come out alike.
#[test]
fn all_orders_that_keep_are_drawn_and_no_others() {
    let mut rng = Rng::new(1, 43);
    for _ in 0..20 {
        let field = Field::new(&mut rng, 1);
        let list = field.list(&mut rng, 5);
        let deeds = deeds(Switch::Unsealed, 1, &list);
        let start = any_image(&mut rng, 1);
        let outcome = serve_all(Switch::Unsealed, &start, &list);
        let mut kept = all_orders(5);
        assert_eq!(kept.len(), 120);
        kept.retain(|order| keeps(&deeds, order));
        kept.sort();
        for order in &kept {
            assert!(serve_in(Switch::Unsealed, &start, &list, order) == outcome);
        }
        let mut drawn: Vec<_> = (0..5_000).map(|_| draw(&mut rng, &deeds)).collect();
        drawn.sort();
        drawn.dedup();
        assert_eq!(drawn, kept);
    }
}

#[test]
fn an_order_has_each_place_once() {
    let deeds = vec![Deed::default(); 3];
    assert!(keeps(&deeds, &[2, 0, 1]));
    for order in [&[0, 1][..], &[0, 1, 1], &[0, 1, 3], &[0, 1, 2, 2], &[]] {
        assert!(!keeps(&deeds, order), "{order:?}");
    }
    let twice = [b":01330FBD\r\n".to_vec(), b":0132CD\r\n".to_vec()];
    let deeds = self::deeds(Switch::Unsealed, 1, &twice);
    assert!(keeps(&deeds, &[0, 1]) && !keeps(&deeds, &[1, 0]));
}

/// Whether two frames come out otherwise the other way round.
fn shows(start: &[u8], pair: &[Vec<u8>; 2]) -> bool {
    let as_written = serve_all(Switch::Unsealed, start, pair);
    serve_in(Switch::Unsealed, start, pair, &[1, 0]) != as_written
}

/// Each kind of pair that clashes, on a fresh image, with bytes of which no two
/// are alike.
fn concrete_pairs() -> Vec<[Vec<u8>; 2]> {
    let constants = |gas| [&[3, 0, 0, 0, gas], &[0; 79][..]].concat();
    let rows = |byte| [&[12, 3], &[byte; 128][..]].concat();
    let clock = |second| vec![second, 0, 0, 1, 1, 1, 0, 0, 0];
    let writes = [
        (51, vec![0x0F], vec![0xF0]),
        (53, constants(1), constants(2)),
        (59, rows(1), rows(2)),
        (62, vec![3, 1, 0x14, 0, 5], vec![3, 1, 0x14, 0, 6]),
        (76, vec![0xFF], vec![0x00]),
        (77, clock(1), clock(2)),
    ];
    let mut pairs = Vec::new();
    for (command, one, other) in &writes {
        pairs.push([ask(1, *command, one), ask(1, *command, other)]);
    }
    for (write, read, named) in [
        (0, 50, vec![]),
        (1, 54, vec![3]),
        (1, 55, vec![3]),
        (2, 60, vec![12, 3]),
        (2, 61, vec![12]),
        (3, 63, vec![3]),
        (3, 64, vec![3]),
        (5, 78, vec![]),
    ] {
        let (command, one, _) = &writes[write];
        let (write, read) = (ask(1, *command, one), ask(1, read, &named));
        pairs.push([write.clone(), read.clone()]);
        pairs.push([read, write]);
    }
    pairs
}

#[test]
fn the_premise_is_needed_for_each_kind_of_pair() {
    let pairs = concrete_pairs();
    assert_eq!(pairs.len(), 6 + 2 * 8);
    for pair in &pairs {
        let [one, other] = [0, 1].map(|place| unsealed(&pair[place]));
        assert!(one.clashes(&other) && other.clashes(&one));
        assert!(shows(&image_at(1), pair), "{pair:?}");
    }
    // Equal writes clash, though turned round they come out alike.
    let twice = [b":01330FBD\r\n"; 2].map(|frame| frame.to_vec());
    assert!(unsealed(&twice[0]).clashes(&unsealed(&twice[1])));
    assert!(!shows(&image_at(1), &twice));
}

/// A rule for when the earlier of two frames and the later one clash.
type Clash = fn(&Deed, &Deed) -> bool;

fn meets(one: &Deed, other: &Deed) -> bool {
    one.written().is_some_and(|cell| other.touches(cell))
}

fn reads_of(one: &Deed, other: &Deed) -> bool {
    one.written()
        .is_some_and(|cell| other.reads.contains(&cell))
}

const WRONG_CLASHES: [(&str, Clash); 7] = [
    ("never", |_, _| false),
    ("reads left out", |one, other| {
        one.written().is_some() && one.written() == other.written()
    }),
    ("two writes left out", |one, other| {
        reads_of(one, other) || reads_of(other, one)
    }),
    ("what the earlier one writes alone", meets),
    ("what the later one writes alone", |one, other| {
        meets(other, one)
    }),
    ("of what 61 reads the first part alone", |one, other| {
        let first = |deed: &Deed| Deed {
            reads: deed.reads.iter().take(1).copied().collect(),
            writes: deed.writes.clone(),
        };
        first(one).clashes(&first(other))
    }),
    ("equal writes alone", |one, other| {
        one.writes == other.writes && one.writes.is_some()
    }),
];

/// Each would let a pair be turned round that then comes out otherwise.
#[test]
fn wrong_clashes_are_found_wrong() {
    let start = image_at(1);
    for (name, clash) in WRONG_CLASHES {
        let lets = |pair: &[Vec<u8>; 2]| {
            let [one, other] = [0, 1].map(|place| unsealed(&pair[place]));
            !clash(&one, &other) && shows(&start, pair)
        };
        assert!(concrete_pairs().iter().any(lets), "{name}");
    }
    let right = |pair: &[Vec<u8>; 2]| {
        let [one, other] = [0, 1].map(|place| unsealed(&pair[place]));
        !one.clashes(&other) && shows(&start, pair)
    };
    assert!(!concrete_pairs().iter().any(right));
}

/// Drawn pairs that clash do not all come out otherwise, since a write may leave
/// what was there. Those that do not clash never do.
#[test]
fn two_frames_that_do_not_clash_may_be_turned_round() {
    let mut rng = Rng::new(1, 44);
    let [mut apart, mut shown] = [0; 2];
    for _ in 0..30 {
        let field = Field::new(&mut rng, 1);
        let start = any_image(&mut rng, 1);
        let list = field.list(&mut rng, 20);
        for later in 0..list.len() {
            for earlier in 0..later {
                let pair = [list[earlier].clone(), list[later].clone()];
                if !unsealed(&pair[0]).clashes(&unsealed(&pair[1])) {
                    assert!(!shows(&start, &pair), "{pair:?}");
                    apart += 1;
                }
            }
        }
        let pairs = clashing(&mut rng, &field);
        shown += pairs.iter().filter(|pair| shows(&start, pair)).count();
    }
    assert!(apart > 3_000 && shown > 300, "{apart} and {shown}");
}

#[test]
fn a_word_is_no_cell() {
    let mut rng = Rng::new(1, 45);
    let sent = |number, rng: &mut Rng| ask(1, 59, &part(rng, 12, number));
    let parts = [sent(3, &mut rng), sent(4, &mut rng)];
    assert!(!unsealed(&parts[0]).clashes(&unsealed(&parts[1])));
    assert!(!shows(&changed_image(&mut rng), &parts));
    for (asked, clashes) in [(12, true), (2, false), (11, false), (13, false)] {
        let signature = unsealed(&ask(1, 61, &[asked]));
        assert_eq!(unsealed(&parts[0]).clashes(&signature), clashes);
    }
    let other_table = unsealed(&ask(1, 59, &part(&mut rng, 2, 3)));
    assert!(!unsealed(&parts[0]).clashes(&other_table));
    let twice = unsealed(&sent(3, &mut rng));
    assert!(unsealed(&parts[0]).clashes(&twice));
}

#[test]
fn sealed_no_two_clash_and_any_order_will_do() {
    let mut rng = Rng::new(1, 46);
    for _ in 0..60 {
        let field = Field::new(&mut rng, 0xCE);
        let list = field.list(&mut rng, 30);
        let deeds = deeds(Switch::Sealed, 0xCE, &list);
        assert!(deeds.iter().all(|deed| deed.writes.is_none()));
        let start = any_image(&mut rng, 0xCE);
        let outcome = serve_all(Switch::Sealed, &start, &list);
        assert!(outcome.1 == start);
        let backwards: Vec<usize> = (0..30).rev().collect();
        assert!(keeps(&deeds, &backwards));
        assert!(serve_in(Switch::Sealed, &start, &list, &backwards) == outcome);
    }
}

/// A refused frame has no cell, whatever it names, and may go anywhere.
#[test]
fn refused_frames_may_go_anywhere() {
    let mut rng = Rng::new(1, 47);
    for _ in 0..60 {
        let field = Field::new(&mut rng, 1);
        let start = any_image(&mut rng, 1);
        let list = field.list(&mut rng, 20);
        let outcome = serve_all(Switch::Unsealed, &start, &list);
        let (mut refused, mut order): (Vec<usize>, Vec<usize>) =
            (0..20).partition(|&place| outcome.0[place].0 != 0);
        for place in refused.drain(..) {
            order.insert(rng.below(order.len() + 1), place);
        }
        assert!(keeps(&deeds(Switch::Unsealed, 1, &list), &order));
        assert!(serve_in(Switch::Unsealed, &start, &list, &order) == outcome);
    }
}

/// The lists of a script that are in another order than the one before, and
/// whether they keep what clashes, come out alike and end as their last writes
/// say.
fn pairs_in(lists: &[List]) -> Vec<[bool; 3]> {
    let pairs = lists
        .windows(2)
        .filter_map(|two| Pair::new(&two[0], &two[1]));
    pairs
        .map(|pair| [pair.kept, pair.is_alike(), pair.other.ends_as_written()])
        .collect()
}

fn lists_of(script: &[u8]) -> Vec<List> {
    let (mut gathered, mut lists) = (Lists::default(), Vec::new());
    probe_calls(script, true, |came| lists.extend(gathered.take(came)));
    lists.extend(gathered.end());
    lists
}

#[test]
fn scripts_serve_lists_in_other_orders() {
    for number in 0..probe_scripts::purposeful() {
        let (name, script) = probe_scripts::script(14, number);
        let pairs = pairs_in(&lists_of(&script));
        let least = match &name[..] {
            "repeats in two orders" => 4,
            "longer lists in two orders" => 2,
            "lists in three orders" | "lists without a clash" => 6,
            "sealed lists in three orders" => 4,
            "lists out of order" => {
                assert_eq!(pairs, [[false, false, true]; 14]);
                continue;
            }
            _ => continue,
        };
        assert!(pairs.len() >= least, "{name}: {}", pairs.len());
        assert!(pairs.iter().all(|pair| *pair == [true; 3]), "{name}");
        assert!(script.len() < 65_536, "{name}");
    }
}

/// Fixed lists of two sessions or three that follow each other, and those of the
/// last session, of which none keeps its order.
#[test]
fn fixed_lists_keep_their_order_or_show_it() {
    let sessions = fixed::sessions().iter();
    let sessions = sessions.filter(|session| session.name.starts_with("order, "));
    let (mut lists, mut streams) = (Vec::new(), Vec::new());
    for session in sessions {
        let script = probe_scripts::fixed_calls(session);
        if session.name == "order, not kept" {
            let pairs = pairs_in(&lists_of(&script));
            // Between two pairs the image is laid out anew.
            assert_eq!(pairs, [[false, false, true]; 14]);
            continue;
        }
        lists.extend(lists_of(&script));
        let mut gathered = Lists::default();
        if let Some(stream) = session.stream() {
            desk_calls(&stream, false, |came| {
                assert!(gathered.take(came).is_none())
            });
            streams.extend(gathered.end());
        }
    }
    assert_eq!(pairs_in(&lists), [[true; 3]; 12]);
    assert_eq!(pairs_in(&streams), [[true; 3]; 9]);
}

/// A list ends where the image is changed behind the block's back, where the
/// switch is turned and where an image is laid out; a question, and a frame that
/// has too short an output, is no part of it.
#[test]
fn lists_are_as_long_as_the_premise_holds() {
    let asked = b"S\x00\x09:0132CD\r\n";
    let sealed = b"K\x00\x09:0132CD\r\n";
    let lengths = |records: &[&[u8]]| {
        let lists = lists_of(&[&b"F\x01"[..], &records.concat()].concat());
        lists
            .iter()
            .map(|list| list.served.len())
            .collect::<Vec<_>>()
    };
    let held = b"H\x00\x00\x00\x01";
    assert_eq!(lengths(&[asked, held, asked]), [2]);
    assert_eq!(
        lengths(&[asked, b"O\x01\x0C\x00", asked, b"O\x01\x90\x00", asked]),
        [2]
    );
    assert_eq!(
        lengths(&[asked, b"P\x00\x00\x06\x01", asked, asked]),
        [1, 2]
    );
    assert_eq!(lengths(&[asked, sealed, sealed, asked]), [1, 2, 1]);
    assert_eq!(lengths(&[asked, b"F\x01", asked]), [1, 1]);
    assert_eq!(lengths(&[asked, b"P\x00\x00\x05\x00", asked]), [1]);
}
