//! What is counted of a list that was served in two orders.

use super::{wrong, Kind};
use crate::cells::{Cell, Deed};
use crate::coverage::checksum::body;
use crate::order::lists::{List, Pair};
use crate::order::turned;

/// Two writes of one cell with none of it between, by their places.
struct Repeat<'a> {
    cell: Cell,
    places: [usize; 2],
    bytes: [&'a [u8]; 2],
}

/// All of them.
fn repeats(deeds: &[Deed]) -> Vec<Repeat<'_>> {
    let mut repeats: Vec<Repeat> = Vec::new();
    for (later, deed) in deeds.iter().enumerate() {
        let Some((cell, came)) = &deed.writes else {
            continue;
        };
        let mut before = deeds[..later].iter().enumerate().rev();
        let earlier = before.find_map(|(place, deed)| {
            let (written, bytes) = deed.writes.as_ref()?;
            (written == cell).then_some((place, bytes))
        });
        if let Some((earlier, bytes)) = earlier {
            repeats.push(Repeat {
                cell: *cell,
                places: [earlier, later],
                bytes: [bytes, came],
            });
        }
    }
    repeats
}

/// The command of an accepted frame.
fn command_at(list: &List, place: usize) -> u8 {
    body(&list.served[place].frame)[1]
}

fn kinds_of_repeats(list: &List) -> Vec<Kind> {
    let repeats = repeats(&list.deeds);
    let mut kinds = Vec::new();
    for repeat in &repeats {
        let ([earlier, later], [left, came]) = (repeat.places, repeat.bytes);
        let command = command_at(list, later);
        kinds.push(Kind::Repeated(command));
        kinds.push(match left == came {
            true => Kind::Same,
            false => Kind::Other,
        });
        match repeat.cell {
            Cell::Errors(_) if came[0] < left[0] => kinds.push(Kind::Shorter),
            Cell::Errors(_) if came[0] > left[0] => kinds.push(Kind::Longer),
            _ => {}
        }
        // A false word stays false by as much through the whole list.
        let item = repeat.cell.item();
        if item.is_some_and(|item| item.is_false(&list.start)) {
            kinds.push(Kind::Amiss(command));
        }
        let between = (earlier + 1..later).filter(|&at| list.deeds[at].touches(repeat.cell));
        kinds.extend(between.map(|at| Kind::Between(command_at(list, at))));
    }
    kinds.extend(again_and_again(list, &repeats));
    kinds
}

/// Of cells that are written more than twice.
fn again_and_again(list: &List, repeats: &[Repeat]) -> Vec<Kind> {
    let mut kinds = Vec::new();
    for repeat in repeats {
        let ([earlier, later], [left, came]) = (repeat.places, repeat.bytes);
        let write = &list.deeds[later];
        let before = &list.deeds[..earlier];
        if before.iter().any(|deed| deed.written() == write.written()) {
            kinds.push(Kind::Thrice);
        }
        if left != came && before.iter().any(|deed| deed.writes == write.writes) {
            kinds.push(Kind::Back);
        }
    }
    kinds
}

/// Of frames that are refused though they name a cell that is written.
fn kinds_of_refused(pair: &Pair) -> Vec<Kind> {
    let (list, mut kinds) = (pair.one, Vec::new());
    let refused = |place: usize| list.served[place].number != 0;
    let writes = |place: usize, cell| list.deeds[place].written() == Some(cell);
    for place in (0..list.deeds.len()).filter(|&place| refused(place)) {
        let Some(cell) = pair.meant[place].written() else {
            continue;
        };
        let before = (0..place).any(|at| writes(at, cell));
        let behind = (place..list.deeds.len()).any(|at| writes(at, cell));
        match (before, behind) {
            (true, false) => kinds.push(Kind::RefusedLast),
            (false, true) => kinds.push(Kind::RefusedFirst),
            _ => {}
        }
    }
    for [one, other] in turned(&pair.order) {
        for [place, at] in [[one, other], [other, one]] {
            if refused(place) && list.deeds[at].clashes(&pair.meant[place]) {
                kinds.push(Kind::RefusedMoved);
            }
        }
    }
    kinds
}

fn kinds_of_turned(pair: &Pair) -> Vec<Kind> {
    let (list, mut kinds) = (pair.one, Vec::new());
    for places in turned(&pair.order) {
        let [one, other] = places.map(|place| &list.deeds[place]);
        if places.iter().all(|&place| list.served[place].number == 0) {
            kinds.push(Kind::Turned);
        }
        if one.reads.iter().any(|&cell| other.reads.contains(&cell)) {
            kinds.push(Kind::TurnedReads);
        }
        if let (Some(Cell::Part(table, _)), Some(Cell::Part(beside, _))) =
            (one.written(), other.written())
        {
            if table == beside {
                kinds.push(Kind::TurnedParts);
            }
        }
        let [one, other] = places.map(|place| &pair.meant[place]);
        if list.letter == 'K' && one.clashes(other) {
            kinds.push(Kind::WouldClash);
        }
    }
    kinds
}

/// Of the pairs of frames in a list, the earlier one first.
fn kinds_of_pairs(pair: &Pair) -> Vec<Kind> {
    let (list, mut kinds) = (pair.one, Vec::new());
    let mut at = vec![0; pair.order.len()];
    for (then, &place) in pair.order.iter().enumerate() {
        at[place] = then;
    }
    for later in 0..at.len() {
        for earlier in 0..later {
            let [one, other] = [earlier, later].map(|place| &list.deeds[place]);
            if one.clashes(other) && at[later] - at[earlier] != later - earlier {
                kinds.push(match (one.written(), other.written()) {
                    (Some(_), Some(_)) => Kind::KeptWrites,
                    (Some(_), None) => Kind::KeptRead,
                    _ => Kind::KeptWrite,
                });
            }
            let [one, other] = [earlier, later].map(|place| &list.served[place]);
            if one.frame == other.frame {
                kinds.push(match one.reply == other.reply {
                    true => Kind::Equal,
                    false => Kind::EqualOtherwise,
                });
            }
            let [one, other] = [earlier, later].map(|place| pair.meant[place].written());
            if list.letter == 'K' && one.is_some() && one == other {
                kinds.push(Kind::SentTwice);
            }
        }
    }
    kinds
}

/// Of a list in which no two frames clash.
fn kinds_without_clash(pair: &Pair) -> Vec<Kind> {
    let deeds = &pair.one.deeds;
    let clashes = |later: usize| {
        let mut before = deeds[..later].iter();
        before.any(|deed| deed.clashes(&deeds[later]))
    };
    if deeds.len() < 3 || (0..deeds.len()).any(clashes) {
        return Vec::new();
    }
    let frames = |list: &'_ List| -> Vec<Vec<u8>> {
        let frames = list.served.iter().map(|served| served.frame.clone());
        frames.collect()
    };
    let mut other = frames(pair.other);
    other.reverse();
    match frames(pair.one) == other {
        true => vec![Kind::NoClash, Kind::Backwards],
        false => vec![Kind::NoClash],
    }
}

/// Of the image before the list, and of the outputs.
fn kinds_of_buffers(pair: &Pair) -> Vec<Kind> {
    let (list, mut kinds) = (pair.one, Vec::new());
    let written = |cell| list.deeds.iter().any(|deed| deed.written() == Some(cell));
    let mut read = list.deeds.iter().flat_map(|deed| deed.reads.iter());
    if read.any(|&cell| !written(cell) && list.start[cell.place()].iter().any(|&byte| byte > 0)) {
        kinds.push(Kind::Old);
    }
    if list.served.iter().any(|served| served.room > 269) {
        kinds.push(Kind::Room);
    }
    let mut places = pair.order.iter().zip(&pair.other.served);
    if places.any(|(&place, served)| list.served[place].room != served.room) {
        kinds.push(Kind::OtherRoom);
    }
    kinds
}

/// What is counted of a list that was served in two orders.
pub fn kinds_of(pair: &Pair) -> Vec<Kind> {
    if !pair.kept {
        return match pair.order.len() == 2 && !pair.is_alike() {
            // Both may write; else the command is that of the read.
            true => {
                let reads = |&place: &usize| pair.one.deeds[place].written().is_none();
                let place = [0, 1].into_iter().find(reads).unwrap_or(0);
                vec![Kind::NotKept(command_at(pair.one, place))]
            }
            false => Vec::new(),
        };
    }
    let mut kinds = [
        kinds_of_repeats(pair.one),
        kinds_of_refused(pair),
        kinds_of_turned(pair),
        kinds_of_pairs(pair),
        kinds_without_clash(pair),
        kinds_of_buffers(pair),
    ]
    .concat();
    for list in [pair.one, pair.other] {
        let meant = list.meant();
        for (place, (_, block, _)) in wrong::all().enumerate() {
            if block.differs(list, &meant) {
                kinds.push(Kind::Wrong(place));
            }
        }
    }
    // A list counts once for each kind.
    kinds.sort();
    kinds.dedup();
    kinds
}
