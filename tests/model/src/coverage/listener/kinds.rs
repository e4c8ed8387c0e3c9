//! What is counted of each byte that a listener takes.

use crate::listener::since::Since;
use crate::listener::Listener;

/// What a byte finds.
#[derive(Clone, Copy, Debug, PartialEq, Eq, PartialOrd, Ord)]
pub enum State {
    /// Not gathering, with nothing in it, and with a frame or anything else.
    Idle,
    Holding,
    /// Gathering, with nothing gathered, with something, and with 269 bytes.
    Empty,
    Gathering,
    Full,
    /// A count above 269, by the flag.
    Over(bool),
}

impl State {
    fn of(listener: &Listener) -> Self {
        match (listener.count, listener.gathering) {
            (270.., flag) => State::Over(flag),
            (0, false) => State::Idle,
            (_, false) => State::Holding,
            (0, true) => State::Empty,
            (269, true) => State::Full,
            (_, true) => State::Gathering,
        }
    }

    fn is_gathering(self) -> bool {
        matches!(self, State::Empty | State::Gathering | State::Full)
    }
}

/// How a listener came to be as it is.
#[derive(Clone, Copy, Debug, PartialEq, Eq, PartialOrd, Ord)]
pub enum Last {
    /// It was so at first, or was set so.
    Set,
    Started,
    Dropped,
    HandedOut,
}

#[derive(Clone, Copy, Debug, PartialEq, Eq, PartialOrd, Ord)]
pub enum Kind {
    /// A 3Ah that starts afresh, by what it finds, and if that is idle or holds a
    /// frame, because a line has left it so.
    Start(State),
    StartBehind(Last),
    /// A frame handed out of 3 bytes, of 269, and of other lengths.
    Shortest,
    Longest,
    Odd,
    Even,
    /// One with 0Dh twice before its 0Ah, one that was begun on an earlier line,
    /// and one whose first byte is no 3Ah.
    ReturnedTwice,
    Begun,
    NoStart,
    /// A drop by an 0Ah that would have ended a frame, by another, by 0Dh and by
    /// any other byte.
    DropFitting,
    DropFeed,
    DropReturn,
    DropOther,
    /// A byte passed by, by why; with a count above 269 by its flag. And an 0Ah
    /// right after an 0Dh, both passed by.
    Passed(Last),
    PassedOver(bool),
    PassedEnd,
    /// A byte gathered with none before it: an 0Ah, and such with 0Dh at the end of
    /// the room, and any other byte.
    FirstFeed,
    FirstReturned,
    FirstOther,
    /// An 0Ah gathered that ends nothing, and one with 0Dh behind it in the room.
    Feed,
    FeedPast,
    /// The 269th byte, and it ends nothing.
    Fills,
    /// A line that a wrong listener, by its place in `wrong::all`, takes
    /// otherwise.
    Wrong(usize),
}

pub const ROWS: [(Kind, &str); 32] = [
    (Kind::Start(State::Idle), "3Ah, idle"),
    (Kind::Start(State::Holding), "3Ah, holding"),
    (Kind::Start(State::Empty), "3Ah, gathering, count 0"),
    (Kind::Start(State::Gathering), "3Ah, gathering"),
    (Kind::Start(State::Full), "3Ah, full"),
    (Kind::Start(State::Over(false)), "3Ah, over-full, flag 0"),
    (Kind::Start(State::Over(true)), "3Ah, over-full, flag 1"),
    (Kind::StartBehind(Last::Dropped), "3Ah behind a drop"),
    (Kind::StartBehind(Last::HandedOut), "3Ah behind a frame"),
    (Kind::Shortest, "frame of 3 bytes"),
    (Kind::Longest, "frame of 269 bytes"),
    (Kind::Odd, "frame of another odd length"),
    (Kind::Even, "frame of an even length"),
    (Kind::ReturnedTwice, "frame with 0Dh twice at its end"),
    (Kind::Begun, "frame begun on an earlier line"),
    (Kind::NoStart, "frame without 3Ah"),
    (Kind::DropFitting, "drop by an 0Ah that fits"),
    (Kind::DropFeed, "drop by another 0Ah"),
    (Kind::DropReturn, "drop by 0Dh"),
    (Kind::DropOther, "drop by another byte"),
    (Kind::Passed(Last::Dropped), "passed by after a drop"),
    (Kind::Passed(Last::HandedOut), "passed by after a frame"),
    (
        Kind::Passed(Last::Set),
        "passed by, not gathering from the start",
    ),
    (Kind::PassedOver(false), "passed by, over-full, flag 0"),
    (Kind::PassedOver(true), "passed by, over-full, flag 1"),
    (Kind::PassedEnd, "0Dh 0Ah passed by"),
    (Kind::FirstFeed, "0Ah gathered with count 0"),
    (
        Kind::FirstReturned,
        "0Ah with count 0, 0Dh last in the room",
    ),
    (Kind::FirstOther, "another byte gathered with count 0"),
    (Kind::Feed, "0Ah gathered, no 0Dh before it"),
    (Kind::FeedPast, "0Ah gathered, 0Dh in its place"),
    (Kind::Fills, "269th byte gathered"),
];

/// A listener as it is in the middle of a run.
pub struct Ear {
    pub listener: Listener,
    last: Last,
    /// The bytes since the last 3Ah, once one has come.
    pub since: Option<Since>,
    /// Whether what is gathered was begun on an earlier line.
    begun: bool,
    /// The byte before, if it was passed by on the same line.
    passed: Option<u8>,
}

impl Ear {
    /// One that was set so.
    pub fn new(listener: &Listener) -> Self {
        Ear {
            listener: listener.clone(),
            last: Last::Set,
            since: None,
            begun: false,
            passed: None,
        }
    }

    pub fn next_line(&mut self) {
        self.begun = self.since.is_some() && State::of(&self.listener).is_gathering();
        self.passed = None;
    }

    /// Takes a byte and counts what that is; gives the frame that it ends.
    pub fn take(&mut self, byte: u8, kinds: &mut Vec<Kind>) -> Option<Vec<u8>> {
        let found = State::of(&self.listener);
        match (byte, found) {
            (b':', _) => self.start(found, kinds),
            (_, State::Full) => kinds.push(self.dropped(byte)),
            (_, State::Empty | State::Gathering) => kinds.extend(self.gathered(byte)),
            _ => self.pass(byte, found, kinds),
        }
        if byte != b':' {
            if let Some(since) = &mut self.since {
                since.push(byte);
            }
        }
        let handed = self.listener.take(byte).map(<[u8]>::to_vec);
        if let Some(frame) = &handed {
            kinds.extend(self.kinds_of_frame(frame));
            self.last = Last::HandedOut;
        }
        if found == State::Full && byte != b':' {
            self.last = Last::Dropped;
        }
        handed
    }

    fn start(&mut self, found: State, kinds: &mut Vec<Kind>) {
        kinds.push(Kind::Start(found));
        kinds.push(Kind::StartBehind(self.last));
        self.since = Some(Since::start(&self.listener.room));
        self.last = Last::Started;
        self.begun = false;
    }

    fn dropped(&self, byte: u8) -> Kind {
        match byte {
            b'\n' if self.listener.room.ends_with(b"\r") => Kind::DropFitting,
            b'\n' => Kind::DropFeed,
            b'\r' => Kind::DropReturn,
            _ => Kind::DropOther,
        }
    }

    /// Of a byte that is put behind those gathered and may end a frame.
    fn gathered(&self, byte: u8) -> Vec<Kind> {
        let room = &self.listener.room;
        let count = self.listener.count as usize;
        let mut kinds = Vec::new();
        let ends = byte == b'\n' && count > 0 && room[count - 1] == b'\r';
        match (count, byte) {
            (0, b'\n') if room.ends_with(b"\r") => {
                kinds.extend([Kind::FirstFeed, Kind::FirstReturned]);
            }
            (0, b'\n') => kinds.push(Kind::FirstFeed),
            (0, _) => kinds.push(Kind::FirstOther),
            (_, b'\n') if !ends => kinds.push(Kind::Feed),
            (268, _) if !ends => kinds.push(Kind::Fills),
            _ => {}
        }
        if byte == b'\n' && !ends && room[count] == b'\r' {
            kinds.push(Kind::FeedPast);
        }
        kinds
    }

    fn pass(&mut self, byte: u8, found: State, kinds: &mut Vec<Kind>) {
        kinds.push(match found {
            State::Over(flag) => Kind::PassedOver(flag),
            _ => Kind::Passed(self.last),
        });
        if (self.passed, byte) == (Some(b'\r'), b'\n') {
            kinds.push(Kind::PassedEnd);
        }
        self.passed = Some(byte);
    }

    fn kinds_of_frame(&self, frame: &[u8]) -> Vec<Kind> {
        let mut kinds = vec![match frame.len() {
            3 => Kind::Shortest,
            269 => Kind::Longest,
            length if length % 2 == 1 => Kind::Odd,
            _ => Kind::Even,
        }];
        if frame.ends_with(b"\r\r\n") {
            kinds.push(Kind::ReturnedTwice);
        }
        if self.begun {
            kinds.push(Kind::Begun);
        }
        if frame[0] != b':' {
            kinds.push(Kind::NoStart);
        }
        kinds
    }
}
