//! Document 02, wish 1: a listener takes one byte at a time off a noisy line and
//! says when a frame is there. Its state is one record, and whatever that holds,
//! it takes every byte.

pub mod since;

/// How many bytes the record has room for.
pub const ROOM: usize = 269;

const START: u8 = 0x3A;
const RETURN: u8 = 0x0D;
const FEED: u8 = 0x0A;

#[derive(Clone, Debug, PartialEq, Eq)]
pub struct Listener {
    /// Past the count it holds what was gathered before, or anything.
    pub room: [u8; ROOM],
    /// How many bytes are gathered, or held of a frame that was handed out.
    pub count: u64,
    /// What the flag says. With a count above the room it says nothing.
    pub gathering: bool,
}

impl Listener {
    pub fn new() -> Self {
        Listener {
            room: [0; ROOM],
            count: 0,
            gathering: false,
        }
    }

    /// Takes a byte; gives the frame if it is the last of one.
    pub fn take(&mut self, byte: u8) -> Option<&[u8]> {
        if byte == START {
            self.start();
            return None;
        }
        match self.gathered()? {
            ROOM => {
                self.drop_all();
                None
            }
            gathered => self.gather(gathered, byte),
        }
    }

    /// How many bytes are gathered, if it is gathering.
    fn gathered(&self) -> Option<usize> {
        let count = usize::try_from(self.count).ok()?;
        (self.gathering && count <= ROOM).then_some(count)
    }

    /// A 3Ah starts afresh from every record.
    fn start(&mut self) {
        self.room[0] = START;
        self.count = 1;
        self.gathering = true;
    }

    /// There is no room for the byte. It is not kept either.
    fn drop_all(&mut self) {
        self.count = 0;
        self.gathering = false;
    }

    /// Puts a byte behind those that are gathered. None stands before the first,
    /// so that cannot end anything.
    fn gather(&mut self, gathered: usize, byte: u8) -> Option<&[u8]> {
        let ends = byte == FEED && self.room[..gathered].ends_with(&[RETURN]);
        self.room[gathered] = byte;
        self.count += 1;
        self.gathering = !ends;
        ends.then_some(&self.room[..=gathered])
    }
}
