//! Scripts of document 02, wish 14: a list is served as written, and then from
//! the same image in other orders, with outputs of other lengths.

use super::Script;
use crate::block::Switch;
use crate::order::drawn::{clashing, deeds, Field};
use crate::order::{draw, ordered};
use crate::streams::{Rng, WRITING};

/// What a list begins with.
struct Start {
    switch: Switch,
    address: u8,
    /// Bytes that are put into a fresh image, and where.
    bytes: Vec<(usize, Vec<u8>)>,
}

/// The images that lists begin with: a fresh one, one with bytes in it that make
/// words false, and one with any words besides.
#[derive(Clone, Copy)]
enum Image {
    Fresh,
    Older,
    False,
}

const IMAGES: [Image; 3] = [Image::Fresh, Image::Older, Image::False];

impl Start {
    fn new(rng: &mut Rng, switch: Switch, field: &Field, image: Image) -> Self {
        let bytes = match image {
            Image::Fresh => Vec::new(),
            Image::Older => field.old_bytes(rng),
            Image::False => [field.old_bytes(rng), field.false_words(rng)].concat(),
        };
        Start {
            switch,
            address: field.address,
            bytes,
        }
    }
}

/// Serves a list, with outputs of any length that is enough.
fn serve_list(script: &mut Script, rng: &mut Rng, start: &Start, list: &[Vec<u8>]) {
    script.fresh(start.address);
    for (offset, bytes) in &start.bytes {
        script.poke_all(*offset, bytes);
    }
    script.output(269, rng.byte());
    for frame in list {
        if rng.percent(40) {
            let any = 269 + rng.below(132);
            script.output(rng.pick(&[269, 270, 271, 399, 400, any]), rng.byte());
        }
        match start.switch {
            Switch::Unsealed => script.serve(frame),
            Switch::Sealed => script.serve_sealed(frame),
        };
    }
}

/// The same in an order that keeps what clashes.
fn serve_otherwise(script: &mut Script, rng: &mut Rng, start: &Start, list: &[Vec<u8>]) {
    let order = draw(rng, &deeds(start.switch, start.address, list));
    serve_list(script, rng, start, &ordered(list, &order));
}

/// Cells of a block of any address.
fn any_field(rng: &mut Rng) -> Field {
    let any = rng.between(1, 255);
    let address = rng.pick(&[1, 0xCE, any]);
    Field::new(rng, address)
}

/// Each of the writing commands is sent over and over among others, a part of a
/// table first. The longest draw stays below 65,536 bytes.
pub fn repeats(rng: &mut Rng) -> Script {
    let mut script = Script::default();
    let lists: [(&[u8], Image); 4] = [
        (&[59, 59], Image::Fresh),
        (&[62, 51], Image::False),
        (&[53, 77, 76], Image::False),
        (&[59, 62, 76], Image::False),
    ];
    for (commands, image) in lists {
        let field = any_field(rng);
        let mut list = Vec::new();
        for &command in commands {
            list.extend(field.repeated(rng, command));
        }
        let start = Start::new(rng, Switch::Unsealed, &field, image);
        serve_list(&mut script, rng, &start, &list);
        serve_otherwise(&mut script, rng, &start, &list);
    }
    script
}

/// Lists by chance, each in three orders; the longest draw stays below 65,536
/// bytes.
pub fn unsealed(rng: &mut Rng) -> Script {
    let mut script = Script::default();
    for image in IMAGES {
        let field = any_field(rng);
        let list = field.list(rng, 24);
        let start = Start::new(rng, Switch::Unsealed, &field, image);
        serve_list(&mut script, rng, &start, &list);
        serve_otherwise(&mut script, rng, &start, &list);
        serve_otherwise(&mut script, rng, &start, &list);
    }
    script
}

/// Longer ones, each in two orders; the longest draw stays below 65,536 bytes.
pub fn longer(rng: &mut Rng) -> Script {
    let mut script = Script::default();
    for image in [Image::Fresh, Image::False] {
        let field = any_field(rng);
        let list = field.list(rng, 55);
        let start = Start::new(rng, Switch::Unsealed, &field, image);
        serve_list(&mut script, rng, &start, &list);
        serve_otherwise(&mut script, rng, &start, &list);
    }
    script
}

/// A list of which no two frames clash: as it is, backwards, and in an order by
/// chance.
fn any_way(script: &mut Script, rng: &mut Rng, start: &Start, mut list: Vec<Vec<u8>>) {
    serve_list(script, rng, start, &list);
    list.reverse();
    serve_list(script, rng, start, &list);
    serve_otherwise(script, rng, start, &list);
}

/// Sealed, no two frames clash. The image has something in it each time. The
/// longest draw stays below 65,536 bytes.
pub fn sealed(rng: &mut Rng) -> Script {
    let mut script = Script::default();
    for image in [Image::Older, Image::False] {
        let field = any_field(rng);
        let mut list = Vec::new();
        for command in WRITING {
            list.extend(field.repeated(rng, command).into_iter().take(5));
        }
        list.extend(field.list(rng, 10));
        let start = Start::new(rng, Switch::Sealed, &field, image);
        any_way(&mut script, rng, &start, list);
    }
    script
}

/// Unsealed, with lists of frames that do not clash either.
pub fn apart(rng: &mut Rng) -> Script {
    let mut script = Script::default();
    for image in IMAGES {
        let field = any_field(rng);
        let list = field.apart(rng);
        let start = Start::new(rng, Switch::Unsealed, &field, image);
        any_way(&mut script, rng, &start, list);
    }
    script
}

/// Two frames that clash, and then the other way round, which is no order that
/// the wish speaks of: something comes out otherwise.
pub fn not_kept(rng: &mut Rng) -> Script {
    let mut script = Script::default();
    let field = any_field(rng);
    let start = Start::new(rng, Switch::Unsealed, &field, Image::Fresh);
    for [one, other] in clashing(rng, &field) {
        for list in [[one.clone(), other.clone()], [other, one]] {
            serve_list(&mut script, rng, &start, &list);
        }
    }
    script
}
