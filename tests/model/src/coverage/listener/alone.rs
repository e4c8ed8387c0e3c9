//! Lines that have nothing on them but frames and noise without 3Ah. Served from
//! a record that is not gathering, they are answered as their frames are alone.

use crate::block::Switch;
use crate::coverage::Came;
use crate::listener::since::{end_of, is_well_formed};
use crate::listener::ROOM;
use crate::probe::{Probe, Record};

/// The frames of such a line, if it is one and has any.
pub fn frames<'a>(came: &Came<'a>) -> Option<Vec<&'a [u8]>> {
    let listener = &came.listening?.listener;
    let gathering = listener.gathering && listener.count <= ROOM as u64;
    if came.call != 'V' || gathering {
        return None;
    }
    let line = came.input;
    let mut starts: Vec<usize> = (0..line.len()).filter(|&at| line[at] == b':').collect();
    starts.push(line.len());
    let mut frames = Vec::new();
    for pair in starts.windows(2) {
        // From a 3Ah to the next: a frame, then noise.
        let part = &line[pair[0]..pair[1]];
        let frame = &part[..end_of(part)?];
        if !is_well_formed(frame) {
            return None;
        }
        frames.push(frame);
    }
    (!frames.is_empty()).then_some(frames)
}

/// Whether each of the frames got what it gets alone, and the image ended the
/// same.
pub fn answers(came: &Came, before: &Probe, frames: &[&[u8]]) -> bool {
    let mut probe = before.clone();
    let serve = |frame: &&[u8]| probe.call(Record::Serve(Switch::Unsealed, frame));
    let alone: Vec<String> = frames.iter().filter_map(serve).collect();
    let answers = came.line.lines().filter(|line| line.starts_with("S "));
    answers.eq(alone.iter().map(String::as_str)) && probe.image() == came.image
}
