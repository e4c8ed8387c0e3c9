//! Scripts of document 02, wish 8: images reached by calls, and others laid out
//! by hand, are moved up and down with frames between, and each thing that is
//! judged is spoiled.

use super::{any_word, Script, ERRORS, IMAGE_BYTES, WORDS};
use crate::items::{self, ITEMS};
use crate::streams::{ask, good_data, more_and_less, Rng, COMMANDS};

/// A way to move.
#[derive(Clone, Copy)]
struct Way {
    letter: u8,
    /// The version of the source, and its length.
    version: u8,
    source: usize,
    /// The length of the target.
    target: usize,
}

const UP: Way = Way {
    letter: b'U',
    version: 1,
    source: 23_753,
    target: 23_817,
};

const DOWN: Way = Way {
    letter: b'D',
    version: 2,
    source: 23_817,
    target: 23_753,
};

impl Script {
    /// Moves the image into the second buffer, as that is.
    fn moved(&mut self, way: Way) -> &mut Self {
        self.given(way.letter, &[])
    }

    /// The second buffer becomes so long and full of this.
    fn beside(&mut self, length: usize, value: u8) -> &mut Self {
        self.exchange().fill(value).image_length(length).exchange()
    }
}

/// Moves that are done; the longest draw stays below 65,536 bytes.
pub fn done(rng: &mut Rng) -> Script {
    let mut script = Script::default();
    for round in 0..8 {
        let address = rng.between(2, 255);
        if round % 3 == 0 {
            by_calls(&mut script, rng, address);
        } else {
            by_hand(&mut script, rng, UP, address);
            there(&mut script, rng, UP);
            script.moved(DOWN); // and back
        }
        frames(&mut script, rng, address);
        there(&mut script, rng, DOWN);
        script.serve(&ask(address, 50, &[])).moved(UP); // and back
        there(&mut script, rng, UP);
        false_words(&mut script, rng, round);
        there(&mut script, rng, DOWN);
        there(&mut script, rng, UP);
        script.serve(&ask(address, 53, &good_data(rng, 53)));
        there(&mut script, rng, DOWN);
    }
    by_hand(&mut script, rng, DOWN, 1);
    there(&mut script, rng, DOWN);
    script.show_all().exchange().show_all();
    script
}

/// A move, and then the moved image is the image. It goes into a buffer of other
/// bytes, or into the one that the image came from.
fn there(script: &mut Script, rng: &mut Rng, way: Way) {
    match rng.percent(60) {
        true => script.beside(way.target, rng.byte()),
        false => script.exchange().image_length(way.target).exchange(),
    };
    script.moved(way).exchange();
}

/// A version 2 image with mask, mode, clock and something in every item, by
/// calls alone.
fn by_calls(script: &mut Script, rng: &mut Rng, address: u8) {
    script.image_length(IMAGE_BYTES).fresh(address);
    for command in [51, 76, 77] {
        script.serve(&ask(address, command, &good_data(rng, command)));
    }
    for item in &ITEMS {
        let [more, _] = more_and_less(rng, item);
        script.serve(&ask(address, item.commands[0], &more));
    }
}

/// A usable source that is full of a byte but for what is judged and for some
/// bytes of each item.
fn by_hand(script: &mut Script, rng: &mut Rng, way: Way, address: u8) {
    script.fill(rng.between(14, 254));
    script.poke_all(0, &[b'I', b'Z', b'K', 0, way.version, address]);
    for table in 0..16 {
        script.poke_all(WORDS + 2 * table, &held(rng));
    }
    for table in 0..8 {
        script.poke(ERRORS + 64 * table, rng.pick(&[0, 1, 5, 20, 21]));
    }
    for item in &ITEMS {
        for _ in 0..3 {
            let place = 1 + rng.below(item.bytes - 1);
            script.poke(item.offset + place, rng.byte());
        }
    }
    script.image_length(way.source);
}

/// The word of the parts held of a table, which of some are all.
fn held(rng: &mut Rng) -> [u8; 2] {
    let any = rng.below(2048) as u16;
    rng.pick(&[any, any, 2047]).to_be_bytes()
}

/// A signature of each kind of item, and then each command.
fn frames(script: &mut Script, rng: &mut Rng, address: u8) {
    for place in [rng.below(16), 16 + rng.below(8), 24 + rng.below(8)] {
        let item = &ITEMS[place];
        script.serve(&ask(address, item.commands[2], &[item.number]));
    }
    for command in COMMANDS {
        script.serve(&ask(address, command, &good_data(rng, command)));
    }
}

/// All words, one of them or some become others.
fn false_words(script: &mut Script, rng: &mut Rng, round: usize) {
    let all = items::WORDS.start;
    match round % 4 {
        0 => drop(script.poke_all(all, &rng.bytes(64))),
        1 => drop(script.poke(all + rng.below(64), rng.byte())),
        2 => drop(script.poke_all(all, &[0; 64])),
        _ => {
            for _ in 0..5 {
                let item = &ITEMS[rng.below(32)];
                script.poke_all(item.word, &any_word(rng).to_be_bytes());
            }
        }
    }
}

/// Bytes of a source that make it unusable, where they stand, and others that
/// make it usable again.
struct Spoil {
    offset: usize,
    bad: Vec<u8>,
    good: Vec<u8>,
}

/// One for each thing that is judged, at its limit and past it.
fn spoils(rng: &mut Rng, way: Way, address: u8) -> Vec<Spoil> {
    let mut spoils = Vec::new();
    let mut spoil = |offset, bad: &[u8], good: &[u8]| {
        let (bad, good) = (bad.to_vec(), good.to_vec());
        spoils.push(Spoil { offset, bad, good });
    };
    for (offset, letter) in b"IZK".iter().enumerate() {
        spoil(offset, &[letter | 0x20], &[*letter]);
        let other = letter.wrapping_add(rng.between(1, 255));
        spoil(offset, &[other], &[*letter]);
    }
    for low in [0, 3 - way.version, rng.between(3, 255)] {
        spoil(3, &[0, low], &[0, way.version]);
    }
    for low in [way.version, rng.byte()] {
        spoil(3, &[rng.between(1, 255), low], &[0, way.version]);
    }
    spoil(5, &[0], &[address]);
    for table in 0..8 {
        let count = match table % 4 {
            0 | 2 => 22,
            1 => rng.between(23, 127),
            _ => rng.between(128, 255),
        };
        spoil(ERRORS + 64 * table, &[count], &[rng.between(0, 21)]);
    }
    for table in 0..16 {
        let [high, low] = held(rng);
        let bad = match table % 4 {
            0 | 2 => [0x08, 0x00],
            1 => [high | 0x10 << rng.below(4), low], // the twelfth bit is not set
            _ => [rng.between(8, 255), low],
        };
        spoil(WORDS + 2 * table, &bad, &[high, low]);
    }
    spoils
}

/// Moves that are refused, each with a second buffer of other bytes, and at the
/// end one that is done.
pub fn refused(rng: &mut Rng) -> Script {
    let mut script = Script::default();
    for (way, other) in [(UP, DOWN), (DOWN, UP)] {
        let address = rng.between(1, 255);
        by_hand(&mut script, rng, other, address);
        for length in [way.target, way.source, any_length(rng)] {
            script.beside(length, rng.byte()).moved(way);
        }
        by_hand(&mut script, rng, way, address);
        for spoil in spoils(rng, way, address) {
            spoiled(&mut script, rng, way, &spoil, way.target);
        }
        several(&mut script, rng, way, address);
        for (source, target) in lengths(rng, way) {
            script.image_length(source);
            script.beside(target, rng.byte()).moved(way);
        }
        script.image_length(way.source);
        there(&mut script, rng, way);
    }
    script.show_all().exchange().show_all();
    script
}

/// A move of a source that is not usable, which then is so again.
fn spoiled(script: &mut Script, rng: &mut Rng, way: Way, spoil: &Spoil, target: usize) {
    script.poke_all(spoil.offset, &spoil.bad);
    script.beside(target, rng.byte()).moved(way);
    script.poke_all(spoil.offset, &spoil.good);
}

/// Two things that are wrong with the source, or one and the target.
fn several(script: &mut Script, rng: &mut Rng, way: Way, address: u8) {
    for _ in 0..4 {
        let spoils = spoils(rng, way, address);
        let [one, two] = [(); 2].map(|()| &spoils[rng.below(spoils.len())]);
        script.poke_all(one.offset, &one.bad);
        for target in [way.target, any_length(rng)] {
            spoiled(script, rng, way, two, target);
        }
        // If both are at one place, that is usable.
        script.poke_all(one.offset, &one.good);
    }
}

fn any_length(rng: &mut Rng) -> usize {
    let any = rng.below(24_001);
    rng.pick(&[
        any, any, 0, 23_752, 23_753, 23_754, 23_816, 23_817, 23_818, 24_000,
    ])
}

/// Wrong lengths of the source, of the target, and of both.
fn lengths(rng: &mut Rng, way: Way) -> Vec<(usize, usize)> {
    let beside = |right: usize, other, any| [0, right - 1, right + 1, other, any, 24_000];
    let mut lengths = Vec::new();
    for source in beside(way.source, way.target, rng.below(way.source)) {
        lengths.push((source, way.target));
    }
    for target in beside(way.target, way.source, rng.below(way.target)) {
        lengths.push((way.source, target));
    }
    lengths.push((way.target, way.source));
    for _ in 0..3 {
        lengths.push((any_length(rng), any_length(rng)));
    }
    lengths
}

/// Down and up again, so that a version 2 image is where it was, at times with
/// moves that are refused before.
pub fn about(script: &mut Script, rng: &mut Rng, address: u8) {
    for way in [DOWN, UP] {
        if rng.percent(40) {
            let spoils = spoils(rng, way, address);
            let spoil = &spoils[rng.below(spoils.len())];
            let target = match rng.percent(70) {
                true => way.target,
                false => any_length(rng),
            };
            spoiled(script, rng, way, spoil, target);
        }
        there(script, rng, way);
    }
}
