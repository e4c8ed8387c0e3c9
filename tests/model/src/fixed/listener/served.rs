//! Frames that are served as they come off a line. A block answers them as it
//! does without the noise.

use super::{Line, Set};
use crate::fixed::{serve, Step};
use crate::streams::ask;

pub fn all() -> Vec<(&'static str, Vec<Line>)> {
    vec![
        ("listener, rows of the paper", paper_rows()),
        ("listener, cells off the line", cells()),
        ("listener, refused off the line", refused()),
        ("listener, served and not", served_and_not()),
    ]
}

fn row(text: &str) -> Step {
    serve("", format!("{text}\r\n").as_bytes())
}

/// P1 to P12 and those behind them, with noise of all kinds between. P4 is as
/// wish 2 has it.
fn paper_rows() -> Vec<Line> {
    let table = [1, 0x14, 0, 5];
    let p10 = row(":013E0101140005A6").replies(":013E01C0");
    let p10 = p10.stores(713, &table).signs(62, 1, &table);
    vec![
        Line::serving("P1 to P3")
            .served(row(":0132CD").replies(":013200CD"))
            .served(row(":01330FBD").replies(":01330FBD").stores(6, &[0x0F]))
            .served(row(":0132CE").refused(6)),
        Line::serving("P4 to P8")
            .hears(b"\r\n\x00")
            .served(row(":0132cD").replies(":01320FBE"))
            .hears(b"\r\n")
            .served(row(":0232CC").refused(7))
            .hears(b":0132CD")
            .served(row(":0153AC").refused(8))
            .hears(b"0132CD\r\n")
            .served(row(":013608C1").refused(10))
            .hears(b":0132CD\r")
            .served(row(":013C0901B9").refused(10)),
        Line::serving("P9 and P10")
            .begins(&[&b":"[..], &[b'0'; 300]].concat())
            .served(row(":013D01C1").replies(":013D010000C1"))
            .hears(&[b'\n'; 300])
            .served(p10),
        Line::serving("P11 and P12")
            .hears(b":::")
            .served(row(":013F01BF").replies(":013F0101140005A5"))
            .hears(b"\x8D\x8A")
            .served(row(":014001BE").replies(":014001001AA4")),
        Line::serving("mode, and part 12")
            .served(row(":014CFFB4").replies(":014CFFB4").stores(7, &[0xFF]))
            .served(row(":014C01B2").refused(11))
            .served(row(":013C0B0CAC").refused(10))
            .served(row(":CE3200").refused(7))
            .hears(b"end"),
    ]
}

/// Part 3 of table 12 is written and read, and table 2 stays as it was: the
/// longest frames that there are, with noise that a record has no room for.
fn cells() -> Vec<Line> {
    let rows: Vec<u8> = (1..=128).collect();
    let part = [&[12, 3], &rows[..]].concat();
    let offset = 1225 + 9 * 1408 + 2 * 128;
    let signature = [12, 0x20, 0x40]; // 1 to 128 add up to 8256
    let beside = [&[2, 3], &[0; 128][..]].concat();
    let clock = [59, 58, 23, 7, 31, 12, 99, 0, 0];
    let write = serve("", &ask(1, 59, &part)).writes(&ask(1, 59, &[12, 3]));
    let write = write
        .stores(offset, &rows)
        .stores(17 + 2 * 9, &[0x00, 0x04])
        .signs(59, 12, &rows);
    let read = |command, asked: &[u8], answer: &[u8]| {
        serve("", &ask(1, command, asked)).writes(&ask(1, command, answer))
    };
    vec![
        Line::serving("a part is written")
            .hears(&[b'F'; 270])
            .served(write)
            .hears(b"\r\n"),
        Line::serving("and read").served(read(60, &[12, 3], &part)),
        Line::serving("and signed")
            .begins(&ask(1, 59, &part)[..268])
            .served(read(61, &[12], &signature))
            .served(read(60, &[2, 3], &beside)),
        Line::serving("a clock is written and read")
            .served(
                serve("", &ask(1, 77, &clock))
                    .replies(":014DB2")
                    .stores(8, &clock),
            )
            .hears(b"\r\n\r\n")
            .served(read(78, &[], &clock)),
    ]
}

/// What is well-formed to a listener and no frame to a block.
fn refused() -> Vec<Line> {
    let run = |length: usize| [&b":"[..], &vec![b'0'; length - 3], b"\r\n"].concat();
    let strange = |text: &[u8]| {
        let (last, begun) = text.split_last().expect("an 0Ah");
        let set = Set::new(true, begun.len() as u64, 0).with(0, begun);
        (set, *last)
    };
    let mut lines = vec![
        Line::serving("3 bytes").served(serve("", b":\r\n").refused(3)),
        Line::serving("7 bytes").served(serve("", b":0132\r\n").refused(3)),
        Line::serving("an even length").served(serve("", b":0132C\r\n").refused(3)),
        Line::serving("268 bytes").served(serve("", &run(268)).refused(3)),
        // 133 times 00h adds up to 0, and no image has address 0.
        Line::serving("269 bytes").served(serve("", &run(269)).refused(7)),
        Line::serving("an 0Ah inside").served(serve("", b":01\n2CD\r\n").refused(5)),
        Line::serving("0Dh twice").served(serve("", b":0132C\r\r\n").refused(5)),
        Line::serving("another length").served(serve("", &ask(1, 50, &[0])).refused(9)),
    ];
    for (text, number) in [(&b"00132CD\r\n"[..], 4), (b"\r\n", 3), (b":0:32CD\r\n", 5)] {
        let (set, last) = strange(text);
        let mut line = Line::serving("a record that no line leaves").ends(&[last], text);
        line.handed[0].call = Some(serve("", text).refused(number));
        lines.push(line.from(set));
    }
    lines
}

/// A frame is served when its last byte is of a line that serves.
fn served_and_not() -> Vec<Line> {
    let mask = |value: u8| {
        let frame = ask(1, 51, &[value]);
        serve("", &frame).writes(&frame).stores(6, &[value])
    };
    let asked = |value: u8| serve("", b":0132CD\r\n").writes(&ask(1, 50, &[value]));
    let text = |value: u8| ask(1, 51, &[value]);
    let mut served_at_last = Line::serving("its end alone is served").ends(b"\n", &text(0x22));
    served_at_last.handed[0].call = Some(mask(0x22));
    vec![
        Line::serving("served").served(mask(0x11)),
        Line::new("not served").frame(&text(0x77)),
        Line::serving("as it was").served(asked(0x11)),
        Line::new("all but its end").gathers(&text(0x22)[..10]),
        served_at_last,
        Line::serving("asked").served(asked(0x22)),
        Line::serving("all but its end, served").gathers(&text(0x33)[..10]),
        Line::new("its end is not served").ends(b"\n", &text(0x33)),
        Line::serving("as it was")
            .hears(b"\r\n")
            .served(asked(0x22)),
        Line::serving("twice").served(mask(0x44)).served(mask(0x44)),
        Line::serving("one after the other")
            .served(mask(0x55))
            .served(asked(0x55))
            .served(mask(0x66))
            .hears(b"\r\n")
            .served(asked(0x66)),
    ]
}
