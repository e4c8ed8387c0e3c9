//! Listeners that are wrong in one thing each.

mod gathered;
mod handed;

use crate::listener::{Listener, ROOM};

/// A listener's way with a byte.
pub struct Way {
    /// Whether the byte starts afresh, and what is left by that.
    starts: fn(&Listener, u8) -> bool,
    start: fn(&mut Listener),
    /// Whether the record is gathering; else the byte is passed by.
    gathers: fn(&Listener) -> bool,
    pass: fn(&mut Listener, u8),
    /// Whether there is no room for the byte, and what is left by the drop.
    drops: fn(&Listener, u8) -> bool,
    drop: fn(&mut Listener, u8),
    /// Where the byte is put.
    put: fn(&mut Listener, u8),
    /// Whether it ends a frame, what is then handed out, and what is left.
    ends: fn(&Listener, u8) -> bool,
    hand: fn(&Listener) -> Vec<u8>,
    end: fn(&mut Listener),
}

pub const RIGHT: Way = Way {
    starts: |_, byte| byte == b':',
    start: |listener| begin(listener, b':'),
    gathers: |listener| listener.gathering && listener.count <= 269,
    pass: |_, _| (),
    drops: |listener, _| listener.count == 269,
    drop: |listener, _| (listener.count, listener.gathering) = (0, false),
    put,
    ends: |listener, byte| byte == b'\n' && before(listener, 1) == Some(b'\r'),
    hand: |listener| listener.room[..count(listener)].to_vec(),
    end: |listener| listener.gathering = false,
};

impl Way {
    fn take(&self, listener: &mut Listener, byte: u8) -> Option<Vec<u8>> {
        if (self.starts)(listener, byte) {
            (self.start)(listener);
            return None;
        }
        if !(self.gathers)(listener) {
            (self.pass)(listener, byte);
            return None;
        }
        if (self.drops)(listener, byte) {
            (self.drop)(listener, byte);
            return None;
        }
        let ends = (self.ends)(listener, byte);
        (self.put)(listener, byte);
        ends.then(|| {
            let frame = (self.hand)(listener);
            (self.end)(listener);
            frame
        })
    }

    /// Whether another frame is handed out or another record left by a line from
    /// this record.
    pub fn differs(&self, found: &Listener, line: &[u8]) -> bool {
        let (mut right, mut other) = (found.clone(), found.clone());
        let same = line.iter().all(|&byte| {
            let handed = self.take(&mut other, byte);
            right.take(byte) == handed.as_deref()
        });
        !same || right != other
    }
}

/// How many bytes are gathered, as far as the room goes.
fn count(listener: &Listener) -> usize {
    listener.count.min(ROOM as u64) as usize
}

/// The last of the bytes that are gathered, the last but one, and so on.
fn before(listener: &Listener, back: usize) -> Option<u8> {
    let place = count(listener).checked_sub(back)?;
    listener.room.get(place).copied()
}

/// This byte alone is gathered.
fn begin(listener: &mut Listener, byte: u8) {
    listener.room[0] = byte;
    (listener.count, listener.gathering) = (1, true);
}

/// One more byte is gathered, if there is room for it.
fn put(listener: &mut Listener, byte: u8) {
    lay_down(listener, byte);
    listener.count = listener.count.wrapping_add(1);
}

/// A byte is put behind those that are gathered, if there is room for it.
fn lay_down(listener: &mut Listener, byte: u8) {
    let place = count(listener);
    if let Some(place) = listener.room.get_mut(place) {
        *place = byte;
    }
}

/// What is wrong with a listener, and the listener.
pub type Wrong = (&'static str, Way);

/// All of them, always in the same order.
pub fn all() -> impl Iterator<Item = &'static Wrong> {
    let lists: [&[Wrong]; 2] = [&gathered::WRONG, &handed::WRONG];
    lists.into_iter().flatten()
}

#[cfg(test)]
mod tests {
    use super::*;
    use crate::compare::probe_calls;
    use crate::probe_scripts;

    /// The rule stands here once more, for wrong ones to differ from it in one
    /// thing each. It must be the model's.
    #[test]
    fn right_listener_does_as_the_model() {
        let mut lines = 0;
        for number in 0..probe_scripts::purposeful() + 30 {
            let (name, script) = probe_scripts::script(8, number);
            if !name.starts_with("listener") && name != "calls by chance" {
                continue;
            }
            probe_calls(&script, true, |came| {
                if let Some(probe) = came.listening {
                    assert!(!RIGHT.differs(&probe.listener, came.input), "{}", came.line);
                    lines += 1;
                }
            });
        }
        assert!(lines > 3_000, "only {lines} lines");
    }
}
