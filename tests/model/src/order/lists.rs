//! Lists as they come up in a run. Each is as long as the premise of wish 14
//! holds: the switch stays in one position, the image is usable and changed by
//! nobody else, and the output has 269 bytes or more.

use super::{keeps, last_writes};
use crate::block::Switch;
use crate::cells::Deed;
use crate::coverage::Came;

/// A frame that was served, and what came of it.
pub struct Served {
    pub frame: Vec<u8>,
    pub number: u8,
    /// Without its last two bytes; nothing if the frame was refused.
    pub reply: Vec<u8>,
    /// How long the output was.
    pub room: usize,
}

pub struct List {
    /// The letter of its calls.
    pub letter: char,
    pub drawn: bool,
    /// The image before the first frame and behind the last.
    pub start: Vec<u8>,
    pub end: Vec<u8>,
    pub served: Vec<Served>,
    pub deeds: Vec<Deed>,
}

impl List {
    fn new(came: &Came) -> Self {
        List {
            letter: came.call,
            drawn: came.drawn,
            start: came.image_before.to_vec(),
            end: came.image_before.to_vec(),
            served: Vec::new(),
            deeds: Vec::new(),
        }
    }

    /// Nobody else can change the image of the desk.
    fn goes_on(&self, came: &Came) -> bool {
        let follows = came.before.is_some() && self.letter == came.call;
        follows && (came.call == 'd' || self.end == came.image_before)
    }

    fn push(&mut self, came: &Came) {
        let switch = match came.call {
            'K' => Switch::Sealed,
            _ => Switch::Unsealed,
        };
        let deed = Deed::new(switch, self.start[5], came.input);
        self.deeds.push(deed);
        self.served.push(Served {
            frame: came.input.to_vec(),
            number: came.number,
            reply: match came.number {
                0 => came.reply.to_vec(),
                _ => Vec::new(),
            },
            room: came.room,
        });
        // The image that a refused frame leaves is shown by the probe alone.
        if came.call != 'd' || came.number == 0 {
            self.end.copy_from_slice(came.image);
        }
    }

    /// What each frame names, accepted or not.
    pub fn meant(&self) -> Vec<Deed> {
        let frames = self.served.iter().map(|served| &served.frame);
        frames.map(|frame| Deed::meant(frame)).collect()
    }

    /// Whether each cell ended with its last accepted write, or with its old
    /// value, each word as they make it, and all else as it was.
    pub fn ends_as_written(&self) -> bool {
        self.end == last_writes(&self.start, &self.deeds)
    }

    /// The order of another list, by places of this one, if both have the same
    /// frames from the same image. Of equal frames the first is matched with the
    /// first and so on, since those of them that clash keep their order.
    pub fn order_of(&self, other: &List) -> Option<Vec<usize>> {
        if (self.letter, self.served.len()) != (other.letter, other.served.len())
            || self.start != other.start
        {
            return None;
        }
        let [mine, others] = [self, other].map(|list| {
            let mut places: Vec<usize> = (0..list.served.len()).collect();
            places.sort_by_key(|&place| &list.served[place].frame);
            places
        });
        let mut order = vec![0; mine.len()];
        for (&place, &at) in mine.iter().zip(&others) {
            if self.served[place].frame != other.served[at].frame {
                return None;
            }
            order[at] = place;
        }
        Some(order)
    }
}

/// A list that was served once more, from the same image and in another order.
pub struct Pair<'a> {
    pub one: &'a List,
    pub other: &'a List,
    /// The order of the other, by places of the one.
    pub order: Vec<usize>,
    /// Whether frames that clash kept their order.
    pub kept: bool,
    /// What each frame names, accepted or not, by places of the one.
    pub meant: Vec<Deed>,
}

impl<'a> Pair<'a> {
    pub fn new(one: &'a List, other: &'a List) -> Option<Self> {
        let order = one.order_of(other)?;
        let kept = keeps(&one.deeds, &order);
        let turned = !order.is_sorted();
        turned.then_some(Pair {
            one,
            other,
            order,
            kept,
            meant: one.meant(),
        })
    }

    /// Whether each frame has the same number and reply, and the image ends the
    /// same. Of the desk's lists no image is seen.
    pub fn is_alike(&self) -> bool {
        let mut places = self.order.iter().zip(&self.other.served);
        let answers = places.all(|(&place, served)| {
            let one = &self.one.served[place];
            (one.number, &one.reply) == (served.number, &served.reply)
        });
        answers && (self.one.letter == 'd' || self.one.end == self.other.end)
    }
}

/// Gathers lists from the calls of a run.
#[derive(Default)]
pub struct Lists {
    open: Option<List>,
}

impl Lists {
    /// Takes a call; gives the list that has ended before it.
    pub fn take(&mut self, came: &Came) -> Option<List> {
        if !matches!(came.call, 'd' | 'S' | 'K') || matches!(came.number, 1 | 2) {
            // A question or a frame taken apart changes no image.
            let goes_on = came.before.is_some() && !matches!(came.call, 'F' | 'U' | 'D');
            return if goes_on { None } else { self.open.take() };
        }
        let mut ended = None;
        if !self.open.as_ref().is_some_and(|list| list.goes_on(came)) {
            ended = self.open.replace(List::new(came));
        }
        if let Some(list) = &mut self.open {
            list.push(came);
        }
        ended
    }

    /// The list that is still open when the run is over.
    pub fn end(&mut self) -> Option<List> {
        self.open.take()
    }
}
