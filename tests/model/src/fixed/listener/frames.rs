//! Lines that are given to a record as the line before left it: frames, what
//! stands between them, and what only looks like one.

use super::Line;

const P1: &[u8] = b":0132CD\r\n";
const P2: &[u8] = b":01330FBD\r\n";

pub fn all() -> Vec<(&'static str, Vec<Line>)> {
    vec![
        ("listener, frames", frames()),
        ("listener, ends", ends()),
        ("listener, 3Ah again", starts()),
        ("listener, a byte at a time", one_by_one()),
        ("listener, lengths", lengths()),
    ]
}

fn line(rule: &'static str) -> Line {
    Line::new(rule)
}

/// A frame, and then bytes that change nothing, so that it is still held.
fn frames() -> Vec<Line> {
    vec![
        line("no byte at all"),
        line("before any 3Ah").hears(b"0132CD\r\n\n\r\r\n\x00\xFF"),
        line("a frame").frame(P1),
        line("no byte at all, a frame held"),
        line("behind a frame").hears(b"0"),
        line("0Ah behind a frame").hears(b"\n"),
        line("an end behind a frame").hears(b"\r\n"),
        line("bytes behind a frame").hears(b"0132CD\r\n\x0D\x8A\xBA\n\n"),
        line("the same again").frame(P1),
        line("two frames, one behind the other").frame(P1).frame(P2),
        line("noise before, between and behind")
            .hears(b"\n\r\n01")
            .frame(P2)
            .hears(b"\r\n\r")
            .frame(P1)
            .hears(b"\nFF\r\n"),
        line("any bytes in it").frame(b":\x00\xFF\x80\x7F;9\x3B\x09\x0B\x0C\x0E\r\n"),
        line("3Ah with its highest bit is no 3Ah").hears(b"\xBA0132CD\r\n"),
        line("no more than 3Ah and the end").frame(b":\r\n"),
        line("one byte between").frame(b":0\r\n"),
        line("a long one").frame(&run(269)),
        line("a short one leaves the rest of it").frame(P1),
        line("a shorter one leaves that").frame(b":\r\n"),
    ]
}

/// What ends a frame, and what does not.
fn ends() -> Vec<Line> {
    vec![
        line("0Ah right after 3Ah").gathers(b":\n"),
        line("an end behind that").ends(b"\r\n", b":\n\r\n"),
        line("0Dh before the 3Ah")
            .hears(b"\r")
            .hears(b":\n")
            .leaves(2, true)
            .keeps(0, b":\n"),
        line("0Dh behind that")
            .hears(b"\r")
            .leaves(3, true)
            .keeps(2, b"\r"),
        line("and 0Ah").ends(b"\n", b":\n\r\n"),
        line("0Dh twice").frame(b":\r\r\n"),
        line("0Dh and 0Ah twice").frame(b":0\r\r\r\n").hears(b"\n"),
        line("another byte between them").gathers(b":0\r0\n"),
        line("0Ah twice")
            .hears(b"\n")
            .leaves(6, true)
            .keeps(5, b"\n"),
        line("0Ah before 0Dh").ends(b"\r\n", b":0\r0\n\n\r\n"),
        line("0Dh alone").gathers(b":0132CD\r"),
        line("0Ah alone").gathers(b":0132CD\n"),
        line("8Ah is no 0Ah").gathers(b":0132CD\r\x8A"),
        line("8Dh is no 0Dh").gathers(b":0132CD\x8D\n"),
        line("0Dh alone behind a frame").frame(P1).hears(b"\r"),
        line("it is not 0Dh before an 0Ah").hears(b"\n"),
        line("and neither behind a 3Ah").gathers(b":\n"),
    ]
}

/// A 3Ah always starts afresh.
fn starts() -> Vec<Line> {
    vec![
        line("inside a frame").hears(b":01").frame(P1),
        line("for the end").gathers(b":0132CD"),
        line("before a frame").frame(P2),
        line("between 0Dh and 0Ah")
            .hears(b":0132CD\r:\n")
            .leaves(2, true)
            .keeps(0, b":\n132CD\r"),
        line("between 0Dh and 0Ah, then an end")
            .hears(b":0\r")
            .frame(b":\n\r\n"),
        line("several").hears(b":::").frame(b":\r\n"),
        line("behind a frame").frame(P1).hears(b":").leaves(1, true),
        line("behind a 3Ah").hears(b":").leaves(1, true),
        line("behind that no 3Ah").ends(b"\r\n", b":\r\n"),
        line("of a frame that was given up").gathers(b":0133FF"),
        line("its end is of no use").frame(P1).hears(b"\r\n"),
    ]
}

/// Each of their bytes is a line, and an empty line comes behind each.
fn one_by_one() -> Vec<Line> {
    let mut lines = Vec::new();
    for frame in [P1, b":\r\n", b":\n\r\r\n", P2] {
        for (place, &byte) in frame.iter().enumerate() {
            let count = place as u64 + 1;
            lines.push(match place + 1 == frame.len() {
                true => line("its last byte").ends(&[byte], frame),
                false => line("not yet")
                    .hears(&[byte])
                    .leaves(count, true)
                    .keeps(place, &[byte]),
            });
            lines.push(line("no byte"));
        }
        lines.push(line("behind it").hears(b"\n"));
    }
    lines
}

/// A run of so many bytes that begins with 3Ah and ends with 0Dh 0Ah.
fn run(length: usize) -> Vec<u8> {
    let mut run = b":".to_vec();
    run.extend((3..length).map(|place| b'0' + (place % 10) as u8));
    run.extend(b"\r\n");
    run
}

/// A run that is too long is dropped at its 270th byte.
fn dropped(rule: &'static str, run: &[u8]) -> Line {
    line(rule).begins(run).leaves(0, false)
}

/// Frames of 3 to 269 bytes are handed out, and nothing longer.
fn lengths() -> Vec<Line> {
    let mut lines = Vec::new();
    for length in [3, 4, 8, 9, 10, 128, 129, 255, 256, 257, 267, 268, 269] {
        lines.push(line("not longer than 269").frame(&run(length)));
    }
    // At 270 it is the fitting 0Ah that drops, at 271 the 0Dh, then a digit.
    for length in [270, 271, 272, 538, 539, 540, 1000] {
        lines.push(dropped("longer than 269", &run(length)));
        lines.push(line("bytes behind a drop").hears(b"0\r\n\n"));
        lines.push(line("a frame behind a drop").frame(P1));
    }
    let mut feeds = [&b":"[..], &[b'\n'; 269]].concat();
    lines.push(dropped("0Ah that does not fit", &feeds));
    feeds.truncate(269);
    lines.push(line("269 bytes").gathers(&feeds));
    lines.push(line("0Dh").hears(b"\r").leaves(0, false));
    lines.push(line("0Ah behind it").hears(b"\n"));
    lines.push(line("269 bytes once more").gathers(&feeds));
    lines.push(line("and then a frame").frame(P2));
    let returned = [&b":"[..], &[b'\r'; 268]].concat();
    lines.push(line("269 bytes, 0Dh last").gathers(&returned));
    lines.push(line("0Ah as the 270th").hears(b"\n").leaves(0, false));
    lines.push(line("269 bytes, 0Dh last again").gathers(&returned));
    lines.push(line("3Ah as the 270th").hears(b":").leaves(1, true));
    lines.push(line("an end behind it").ends(b"\r\n", b":\r\n"));
    lines
}
