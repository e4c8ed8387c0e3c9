//! Fixed calls of document 02, wish 8: an image is moved up to version 2, with
//! all 32 words true, and down to version 1, with the words dropped, true or
//! false. All other bytes are kept, and nothing of what the target held is left.
//! Number 1 is for a source that is not usable in its version and for a target
//! that is not of the other version's length; then both buffers stay as they
//! are.

mod refused;

use super::signatures::{adding_up, all_refused, asked, asked_twice, write_of, SUMS};
use super::{fresh, serve, Change, Session, Step};
use crate::items::{Item, ITEMS, WORDS};
use crate::streams::ask;

/// A way to move.
#[derive(Clone, Copy)]
struct Way {
    letter: char,
    /// The version of the source, and its length.
    version: u8,
    source: usize,
    /// The length of the target.
    target: usize,
}

const UP: Way = Way {
    letter: 'U',
    version: 1,
    source: 23_753,
    target: 23_817,
};

const DOWN: Way = Way {
    letter: 'D',
    version: 2,
    source: 23_817,
    target: 23_753,
};

impl Way {
    /// A move that is done. If it is up, it adds these words.
    fn done(self, rule: &'static str, words: &[u16; 32]) -> Step {
        let step = Step::new(rule, self.letter, &[]);
        match self.letter {
            'U' => step.moves(2, &spread(words)),
            _ => step.moves(1, &[]),
        }
    }

    fn refused(self, rule: &'static str) -> Step {
        Step::new(rule, self.letter, &[]).refused(1)
    }
}

pub fn sessions() -> Vec<Session> {
    let mut sessions = vec![
        Session::new("moves, each item up", each_up()),
        Session::new("moves, each item down", each_down()),
        Session::new("moves, there and back", there_and_back()),
        Session::new("moves, all bytes FFh", all_full()),
        Session::new("moves, remainders", remainders()),
        Session::new("moves, fresh images", fresh_images()),
        Session::new("moves, false words", false_words()),
        Session::new("moves, frames between", frames_between()),
        Session::new("moves, once more", once_more()),
    ];
    sessions.extend(refused::sessions());
    sessions
}

/// Words as they lie in the image.
fn spread(words: &[u16; 32]) -> Vec<u8> {
    words.iter().flat_map(|word| word.to_be_bytes()).collect()
}

/// Mask, mode and clock.
const SETTINGS: [u8; 11] = [0xA5, 0xFF, 59, 58, 23, 7, 31, 12, 99, 0, 0];

/// The words of the parts held, by table.
const HELD: [u16; 16] = [
    0x001, 0x002, 0x004, 0x008, 0x010, 0x020, 0x040, 0x080, 0x100, 0x200, 0x400, 0x7FF, 0x555,
    0x2AA, 0x000, 0x3FF,
];

/// The bytes of an item, by its place among the words, that add up to its sum
/// in `SUMS`. The first and the last are not 0; the first is the row count if
/// there is one. The others lie at another place in each item.
fn cell(place: usize) -> Vec<u8> {
    let (item, sum) = (&ITEMS[place], SUMS[place] - 3 - 5);
    let run = adding_up(sum, usize::from(sum.div_ceil(255)));
    let first = 1 + 89 * place % (item.bytes - 1 - run.len());
    let mut cell = vec![0; item.bytes];
    cell[0] = 3;
    cell[first..first + run.len()].copy_from_slice(&run);
    cell[item.bytes - 1] = 5;
    cell
}

/// The mark, the version and the address.
fn head(version: u8, address: u8) -> Change {
    Change::Bytes(0, vec![b'I', b'Z', b'K', 0, version, address])
}

/// A source with something in every item, and sums of which no two are alike.
/// Behind a version 1 image the same words lie as in a version 2 image.
fn each(way: Way) -> Vec<Change> {
    let held = HELD.iter().flat_map(|word| word.to_be_bytes());
    let mut changes = vec![
        Change::Fill(0),
        head(way.version, 1),
        Change::Bytes(6, SETTINGS.to_vec()),
        Change::Bytes(17, held.collect()),
    ];
    for (place, item) in ITEMS.iter().enumerate() {
        // Only what is not 0 any more.
        let cell = cell(place);
        let runs = cell.split_inclusive(|&byte| byte == 0);
        let mut at = item.offset;
        for run in runs {
            let bytes = run.strip_suffix(&[0]).unwrap_or(run);
            if !bytes.is_empty() {
                changes.push(Change::Bytes(at, bytes.to_vec()));
            }
            at += run.len();
        }
    }
    changes.push(Change::Bytes(WORDS.start, spread(&SUMS)));
    changes.push(Change::Length(way.source));
    changes
}

/// The second buffer is full of this byte and of this length.
fn beside(length: usize, byte: u8) -> [Change; 4] {
    [
        Change::Exchange,
        Change::Fill(byte),
        Change::Length(length),
        Change::Exchange,
    ]
}

/// The same steps on the image that stands in the second buffer before them.
fn on_moved(mut steps: Vec<Step>) -> Vec<Step> {
    steps[0].changed.insert(0, Change::Exchange);
    steps
}

/// Both buffers to their ends, by a call that is refused for their length.
fn both_shown() -> [Step; 2] {
    let shown = || fresh("to its end", 1).refused(1);
    let whole = [Change::Length(24_000)];
    [
        shown().after(&whole),
        shown().after(&[Change::Exchange]).after(&whole),
    ]
}

fn each_up() -> Vec<Step> {
    let step = UP.done("true words, all else kept", &SUMS);
    let mut steps = vec![step.after(&each(UP)).after(&beside(UP.target, 0xEE))];
    let mut asked = Vec::new();
    for (item, word) in ITEMS.iter().zip(SUMS) {
        asked.extend(asked_twice("as moved", item.commands[2], item.number, word));
    }
    steps.extend(on_moved(asked));
    steps.extend(cells_read());
    steps.extend(both_shown());
    steps
}

/// What the image of `each` replies.
fn cells_read() -> Vec<Step> {
    let read = |command, data: &[u8], reply: &[u8]| {
        let step = serve("as moved", &ask(1, command, data));
        step.writes(&ask(1, command, &[data, reply].concat()))
    };
    let held = |table: u32, parts, missing| {
        let step = Step::new("as moved", 'H', &table.to_be_bytes());
        step.holds(parts, missing)
    };
    vec![
        read(50, &[], &SETTINGS[..1]),
        read(78, &[], &SETTINGS[2..]),
        read(54, &[0], &cell(16)),
        read(54, &[7], &cell(23)),
        read(60, &[1, 1], &cell(0)[..128]),
        read(60, &[18, 11], &cell(15)[1280..]),
        read(63, &[1], &cell(24)[..10]),
        read(63, &[8], &cell(31)[..10]),
        held(1, 1, 2),
        held(14, 11, 0),
        held(17, 0, 1),
        held(18, 10, 11),
    ]
}

/// What is moved down is served no more.
fn each_down() -> Vec<Step> {
    let step = DOWN.done("words dropped, all else kept", &SUMS);
    let mut steps = vec![step.after(&each(DOWN)).after(&beside(DOWN.target, 0xEE))];
    steps.extend(on_moved(all_refused()));
    steps.extend(both_shown());
    steps
}

/// A target that holds what is moved into it stays as it is. One that is full of
/// another byte comes to the same.
fn there_and_back() -> Vec<Step> {
    let mut steps = Vec::new();
    for byte in [0x00, 0x5A, 0xFF] {
        for (way, back) in [(UP, DOWN), (DOWN, UP)] {
            let there = way.done("there", &SUMS).after(&each(way));
            steps.push(there.after(&beside(way.target, byte)));
            steps.extend(on_moved(vec![back.done("and back", &SUMS)]));
            let over = back.done("over other bytes", &SUMS);
            steps.push(over.after(&beside(back.target, byte)));
            steps.extend(on_moved(vec![way.done("there again", &SUMS)]));
            let over = way.done("over other bytes", &SUMS);
            steps.push(over.after(&beside(way.target, !byte)));
        }
    }
    steps
}

/// A source of which all bytes are this but for those that are judged, with as
/// much in these as may be.
fn full_of(byte: u8, way: Way, address: u8) -> Vec<Change> {
    let mut changes = vec![
        Change::Fill(byte),
        head(way.version, address),
        Change::Bytes(17, [0x07, 0xFF].repeat(16)),
    ];
    for item in ITEMS.iter().filter(|item| item.commands[0] == 62) {
        changes.push(Change::Bytes(item.offset, vec![21]));
    }
    changes.push(Change::Length(way.source));
    changes
}

/// The same word for all items of a kind.
fn words_of_kinds(table: u16, constants: u16, errors: u16) -> [u16; 32] {
    let mut words = [table; 32];
    words[16..24].fill(constants);
    words[24..].fill(errors);
    words
}

fn asked_of_kinds(words: &[u16; 32]) -> Vec<Step> {
    let mut steps = Vec::new();
    for place in [0, 7, 8, 15, 16, 23, 24, 31] {
        let item = &ITEMS[place];
        let (sign, word) = (item.commands[2], words[place]);
        steps.push(asked("as moved", sign, item.number, word));
    }
    steps
}

/// 1,408 times FFh is 57A80h, 83 times FFh 52ADh, and 63 times FFh and 21 are
/// 3ED6h. Neither the mode nor the clock nor a reserve is judged.
fn all_full() -> Vec<Step> {
    let words = words_of_kinds(0x7A80, 0x52AD, 0x3ED6);
    let up = UP.done("above 65,535", &words).after(&full_of(0xFF, UP, 1));
    let mut steps = vec![up.after(&beside(UP.target, 0x00))];
    steps.extend(on_moved(asked_of_kinds(&words)));
    steps.push(DOWN.done("back", &words));
    let down = DOWN.done("words FFFFh", &words);
    let down = down.after(&full_of(0xFF, DOWN, 255));
    steps.push(down.after(&beside(DOWN.target, 0x00)));
    steps.extend(on_moved(vec![UP.done("above 65,535", &words)]));
    steps.push(
        UP.done("over other bytes", &words)
            .after(&beside(UP.target, 0x11)),
    );
    steps.extend(both_shown());
    steps
}

/// A byte of which 1,408 are nearly a multiple of 65,536, that multiple, and the
/// words of the constants and of the error tables when all is full of it.
const MULTIPLES: [(u8, i32, u16, u16); 5] = [
    (46, 65_536, 0x0EEA, 0x0B67),
    (93, 131_072, 0x1E27, 0x16F8),
    (140, 196_608, 0x2D64, 0x2289),
    (186, 262_144, 0x3C4E, 0x2DDB),
    (233, 327_680, 0x4B8B, 0x396C),
];

/// The sixteen tables have sums from 8 below a multiple of 65,536 to 7 above it.
fn remainders() -> Vec<Step> {
    let mut steps = Vec::new();
    for (byte, multiple, constants, errors) in MULTIPLES {
        let mut words = words_of_kinds(0, constants, errors);
        let mut changes = full_of(byte, UP, 1);
        for (place, table) in (0..).zip(&ITEMS[..16]) {
            let lacks = multiple - 8 + place - 1408 * i32::from(byte);
            changes.push(Change::Bytes(table.offset, amended(byte, lacks)));
            words[place as usize] = 0xFFF8u16.wrapping_add(place as u16);
        }
        let up = UP.done("remainder by 65,536", &words).after(&changes);
        steps.push(up.after(&beside(UP.target, byte)));
        steps.extend(on_moved(asked_of_kinds(&words)));
        steps.push(DOWN.done("and back", &words));
    }
    steps
}

/// Bytes that stand in the place of as many of this one and add up to so much
/// more than they, or less.
fn amended(byte: u8, mut lacks: i32) -> Vec<u8> {
    let mut bytes = Vec::new();
    while lacks != 0 {
        let step = lacks.clamp(-i32::from(byte), 255 - i32::from(byte));
        bytes.push((i32::from(byte) + step) as u8);
        lacks -= step;
    }
    bytes
}

/// Those of version 1 are laid out by hand.
fn fresh_images() -> Vec<Step> {
    let words = [0; 32];
    let mut steps = Vec::new();
    for address in [1, 0xCE, 255] {
        let by_hand = [Change::Fill(0), head(1, address), Change::Length(23_753)];
        let up = UP.done("fresh", &words).after(&by_hand);
        steps.push(up.after(&beside(UP.target, 0xFF)));
        let mut image = [0; 23_817];
        image[..6].copy_from_slice(&[b'I', b'Z', b'K', 0, 2, address]);
        let laid_out = fresh("over the moved one", address).stores(0, &image);
        steps.extend(on_moved(vec![laid_out]));
        steps.push(DOWN.done("fresh", &words).after(&beside(DOWN.target, 0xFF)));
        let mask = ask(address, 51, &[address]);
        steps.push(serve("fresh", &mask).writes(&mask).stores(6, &[address]));
        steps.push(DOWN.done("mask alone", &words));
        steps.extend(on_moved(vec![UP.done("mask alone", &words)]));
    }
    steps
}

/// One byte of one word at a time, then all words at once. What is moved down is
/// the same, and moved up again it has true words.
fn false_words() -> Vec<Step> {
    let right = spread(&SUMS);
    let mut steps = vec![DOWN
        .done("true words", &SUMS)
        .after(&each(DOWN))
        .after(&beside(DOWN.target, 0x99))];
    for (place, &byte) in right.iter().enumerate() {
        let step = DOWN.done("one false word", &SUMS);
        let before = place.saturating_sub(1);
        let step = step.after_change(WORDS.start + before, &right[before..=before]);
        let step = step.after_change(WORDS.start + place, &[byte ^ 1 << (place % 8)]);
        // Else the target would hold what is moved into it.
        steps.push(step.after(&beside(DOWN.target, place as u8)));
    }
    let turned: Vec<u8> = right.iter().rev().copied().collect();
    for words in [vec![0; 64], vec![0xFF; 64], turned] {
        let down = DOWN.done("all words false", &SUMS).after(&each(DOWN));
        let down = down.after_change(WORDS.start, &words);
        steps.push(down.after(&beside(DOWN.target, 0x77)));
        steps.extend(on_moved(vec![UP.done("all words true", &SUMS)]));
        steps.extend(on_moved(asked_of_kinds(&SUMS)));
    }
    steps
}

/// Down into a buffer of other bytes, up into another of such, and the image is
/// where it was.
fn down_and_up(words: &[u16; 32], byte: u8) -> Vec<Step> {
    let down = DOWN.done("frames before", words);
    let mut steps = vec![down.after(&beside(DOWN.target, byte))];
    let refused = serve("no image", b":0132CD\r\n").refused(1);
    steps.extend(on_moved(vec![refused]));
    let up = UP.done("frames before", words);
    steps.push(up.after(&beside(UP.target, !byte)));
    steps
}

/// All items are written, moved, written over, and moved once more with words
/// that are false by then.
fn frames_between() -> Vec<Step> {
    let written = |rule, words: &[u16; 32], off: u16| {
        let places = words.iter().enumerate();
        let write = |(place, &sum)| write_of(rule, place, sum, u16::wrapping_add(sum, off));
        places.map(write).collect::<Vec<Step>>()
    };
    let asked_all = |words: &[u16; 32]| {
        let items = ITEMS.iter().zip(words);
        let ask =
            |(item, &word): (&Item, _)| asked("as moved", item.commands[2], item.number, word);
        items.map(ask).collect::<Vec<Step>>()
    };
    let less = SUMS.map(|sum| sum - 0x0100);
    let mut steps = written("before", &SUMS, 0);
    steps.extend(down_and_up(&SUMS, 0x3C));
    steps.extend(on_moved(asked_all(&SUMS)));
    steps.extend(written("over what was moved", &less, 0));
    steps.extend(down_and_up(&less, 0x4D));
    steps.extend(on_moved(written("as it was", &less, 0)));
    // Each word 8000h off, and so are those that writes leave.
    let off = less.map(|sum| sum.wrapping_add(0x8000));
    let mut amiss = written("false words amended", &SUMS, 0x8000);
    amiss[0]
        .changed
        .push(Change::Bytes(WORDS.start, spread(&off)));
    steps.extend(amiss);
    steps.extend(down_and_up(&SUMS, 0x5E));
    steps.extend(on_moved(asked_all(&SUMS)));
    steps
}

/// What has been moved is of the other version, so that the same move refuses
/// it, whatever the target's length.
fn once_more() -> Vec<Step> {
    let mut steps = Vec::new();
    for way in [UP, DOWN] {
        let there = way.done("there", &SUMS).after(&each(way));
        steps.push(there.after(&beside(way.target, 0x42)));
        steps.extend(on_moved(vec![way.refused("of the other version")]));
        for length in [way.target, way.source, 24_000, 0] {
            let step = way.refused("of the other version");
            steps.push(step.after(&beside(length, 0x42)));
        }
    }
    steps
}
