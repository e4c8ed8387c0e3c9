//! The rule of wish 1 once more, told otherwise. From the first 3Ah on no record
//! decides anything: what is handed out at a byte is the bytes since the last
//! 3Ah, if these are a well-formed frame, and else nothing. Nothing is taken
//! from the listener but the form of its record, so a slip in either shows.

use super::{Listener, ROOM};

/// Begins with 3Ah and has no other, ends with the first 0Dh 0Ah in it, and has
/// 269 bytes at most.
pub fn is_well_formed(bytes: &[u8]) -> bool {
    bytes.len() <= 269
        && bytes.ends_with(b"\r\n")
        && end_of(bytes) == Some(bytes.len())
        && bytes.iter().rposition(|&byte| byte == b':') == Some(0)
}

/// How many bytes there are up to the first 0Dh 0Ah, both included.
pub fn end_of(bytes: &[u8]) -> Option<usize> {
    let place = bytes.windows(2).position(|pair| pair == b"\r\n")?;
    Some(place + 2)
}

/// The bytes since the last 3Ah.
pub struct Since {
    bytes: Vec<u8>,
    /// The room when that 3Ah came.
    room: [u8; ROOM],
}

impl Since {
    /// A 3Ah that finds this in the room.
    pub fn start(room: &[u8; ROOM]) -> Self {
        Since {
            bytes: vec![b':'],
            room: *room,
        }
    }

    /// A byte that is no 3Ah.
    pub fn push(&mut self, byte: u8) {
        self.bytes.push(byte);
    }

    /// What is handed out at the last of them.
    pub fn handed_out(&self) -> Option<&[u8]> {
        is_well_formed(&self.bytes).then_some(&self.bytes)
    }

    /// The record behind the last of them: it holds the frame that they begin
    /// with, or gathers while they can be the beginning of one, or has dropped
    /// them.
    pub fn record(&self) -> Listener {
        let frame = end_of(&self.bytes).filter(|&end| end <= ROOM);
        let kept = frame.unwrap_or(self.bytes.len().min(ROOM));
        let mut room = self.room;
        room[..kept].copy_from_slice(&self.bytes[..kept]);
        let gathering = frame.is_none() && self.bytes.len() <= ROOM;
        let dropped = frame.is_none() && !gathering;
        Listener {
            room,
            count: if dropped { 0 } else { kept as u64 },
            gathering,
        }
    }
}
