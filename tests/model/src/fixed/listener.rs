//! Fixed lines of document 02, wish 1. A listener starts afresh at each 3Ah,
//! ends a frame at 0Ah right after 0Dh and hands it out as gathered, and drops
//! what it has gathered at a 270th byte other than 3Ah. After that, or with a
//! frame handed out, or with a count above 269, no byte but 3Ah changes
//! anything. What is not gathered stays in the room as it was.

mod frames;
mod limits;
mod served;

use std::sync::LazyLock;

use super::buffers::Buffers;
use super::{Step, FILL, SERVE_ROOM};
use crate::listener::ROOM;
use crate::probe::{digest, Then};

/// What the record is set to behind the listener's back.
#[derive(Clone)]
pub struct Set {
    pub gathering: bool,
    pub count: u64,
    /// Every byte of the room but for those that follow.
    pub fill: u8,
    pub bytes: Vec<(usize, u8)>,
}

impl Set {
    fn new(gathering: bool, count: u64, fill: u8) -> Self {
        Set {
            gathering,
            count,
            fill,
            bytes: Vec::new(),
        }
    }

    /// What the room has instead, and where.
    fn with(mut self, offset: usize, bytes: &[u8]) -> Self {
        self.bytes.extend((offset..).zip(bytes.iter().copied()));
        self
    }
}

/// A frame that is handed out, when so many bytes of its line are taken, and the
/// call that serves it, if it is served.
struct Handed {
    taken: usize,
    frame: Vec<u8>,
    call: Option<Step>,
}

/// A line that the listener is given, the rule it shows, and what comes of it.
pub struct Line {
    pub rule: &'static str,
    pub then: Then,
    pub set: Option<Set>,
    pub bytes: Vec<u8>,
    handed: Vec<Handed>,
    /// Count and flag behind it, if they are others.
    left: Option<(u64, bool)>,
    /// What it leaves in the room, and where.
    stored: Vec<(usize, Vec<u8>)>,
}

impl Line {
    fn new(rule: &'static str) -> Self {
        Line {
            rule,
            then: Then::Nothing,
            set: None,
            bytes: Vec::new(),
            handed: Vec::new(),
            left: None,
            stored: Vec::new(),
        }
    }

    /// The same, and each frame is served.
    fn serving(rule: &'static str) -> Self {
        Line {
            then: Then::Serve,
            ..Line::new(rule)
        }
    }

    fn from(mut self, set: Set) -> Self {
        self.set = Some(set);
        self
    }

    /// Bytes at which nothing is handed out.
    fn hears(mut self, bytes: &[u8]) -> Self {
        self.bytes.extend(bytes);
        self
    }

    /// Bytes at the last of which this is handed out and then held.
    fn ends(mut self, bytes: &[u8], frame: &[u8]) -> Self {
        self.bytes.extend(bytes);
        self.handed.push(Handed {
            taken: self.bytes.len(),
            frame: frame.to_vec(),
            call: None,
        });
        self.leaves(frame.len() as u64, false).keeps(0, frame)
    }

    /// A whole frame, handed out at its last byte.
    fn frame(self, frame: &[u8]) -> Self {
        self.ends(frame, frame)
    }

    /// The same, and this is how it is served.
    fn served(self, call: Step) -> Self {
        let frame = call.input.clone();
        let mut line = self.frame(&frame);
        if let Some(handed) = line.handed.last_mut() {
            handed.call = Some(call);
        }
        line
    }

    fn leaves(mut self, count: u64, gathering: bool) -> Self {
        self.left = Some((count, gathering));
        self
    }

    /// Leaves these bytes in the room.
    fn keeps(mut self, offset: usize, bytes: &[u8]) -> Self {
        self.stored.push((offset, bytes.to_vec()));
        self
    }

    /// Bytes from a 3Ah on that come to nothing, though the room keeps them as far
    /// as it goes.
    fn begins(self, bytes: &[u8]) -> Self {
        self.hears(bytes).keeps(0, &bytes[..bytes.len().min(ROOM)])
    }

    /// Bytes from a 3Ah on that are all gathered.
    fn gathers(self, bytes: &[u8]) -> Self {
        self.begins(bytes).leaves(bytes.len() as u64, true)
    }
}

/// Lines in turn, on a record that is all 0 before the first and on one image,
/// fresh at address 1 before it.
pub struct Hearing {
    pub name: &'static str,
    pub lines: Vec<Line>,
}

/// All that the lines change, from what is written here alone.
struct State {
    room: [u8; ROOM],
    count: u64,
    gathering: bool,
    buffers: Buffers,
    output: [u8; SERVE_ROOM],
}

impl State {
    fn set(&mut self, set: &Set) {
        self.room.fill(set.fill);
        for &(offset, value) in &set.bytes {
            self.room[offset] = value;
        }
        (self.count, self.gathering) = (set.count, set.gathering);
    }

    /// The line of a frame that is served.
    fn serve(&mut self, call: &Step) -> String {
        self.buffers.take(call);
        self.output[..call.wrote.len()].copy_from_slice(&call.wrote);
        let (image, output) = (self.buffers.image(), digest(&self.output));
        format!("S {} {} {image} {output}", call.number, call.wrote.len())
    }

    /// What the probe prints for a line.
    fn take(&mut self, line: &Line) -> Vec<String> {
        let mut lines = Vec::new();
        if let Some(set) = &line.set {
            self.set(set);
        }
        for handed in &line.handed {
            let (taken, frame) = (handed.taken, &handed.frame);
            lines.push(format!("G {taken} {} {}", frame.len(), digest(frame)));
            lines.extend(handed.call.as_ref().map(|call| self.serve(call)));
        }
        for (offset, bytes) in &line.stored {
            self.room[*offset..offset + bytes.len()].copy_from_slice(bytes);
        }
        (self.count, self.gathering) = line.left.unwrap_or((self.count, self.gathering));
        let (letter, count, flag) = (line.then.letter(), self.count, u8::from(self.gathering));
        lines.push(format!("{letter} {count} {flag} {}", digest(&self.room)));
        lines
    }
}

impl Hearing {
    /// What the probe prints for each line.
    pub fn probe_lines(&self) -> Vec<Vec<String>> {
        let mut state = State {
            room: [0; ROOM],
            count: 0,
            gathering: false,
            buffers: Buffers::new(1),
            output: [FILL; SERVE_ROOM],
        };
        self.lines.iter().map(|line| state.take(line)).collect()
    }
}

/// All of them, which are made once.
pub fn hearings() -> &'static [Hearing] {
    static HEARINGS: LazyLock<Vec<Hearing>> = LazyLock::new(|| {
        let hearing = |(name, lines)| Hearing { name, lines };
        let all = [frames::all(), limits::all(), served::all()];
        all.into_iter().flatten().map(hearing).collect()
    });
    &HEARINGS
}
