//! What a run has had checked and sent so far, and what that is held to.

use std::collections::BTreeSet;
use std::io::{self, Write};

use super::file::{File, Piece, ADDRESS, TABLE};
use super::{kinds_of, Kind};
use crate::coverage::{Came, Right};
use crate::table_file::told::told;
use crate::tables::{Row, ROWS};

/// Calls that print the image's digest.
const SHOWING: [char; 5] = ['F', 'S', 'K', 'U', 'D'];

/// An accepted file on its way to a fresh image of its address.
struct Sending {
    address: u8,
    table: u8,
    rows: Vec<Row>,
    frames: Vec<Vec<u8>>,
    /// The places of the frames that are sent, once there is a fresh image for
    /// them, and that image as they have left it.
    sent: Option<(Vec<usize>, Vec<u8>)>,
}

impl Sending {
    fn new(file: &File) -> Option<Self> {
        let first = file.pieces.first()?;
        (file.number == 0).then_some(Sending {
            address: first.byte(ADDRESS)?,
            table: first.byte(TABLE)?,
            rows: file.rows.clone(),
            frames: file
                .pieces
                .iter()
                .map(|piece: &Piece| piece.text.to_vec())
                .collect(),
            sent: None,
        })
    }

    fn is_whole(&self) -> bool {
        let sent = self.sent.as_ref();
        sent.is_some_and(|(places, _)| places.len() == self.frames.len())
    }

    /// The volume that the file's own rows give at a level from row 1's to row 352's.
    fn volume(&self, level: u32) -> Option<u32> {
        let wide = |row: &Row| (u64::from(row.level), u64::from(row.volume));
        let asked = u64::from(level);
        let (last_level, last_volume) = wide(self.rows.last()?);
        if asked == last_level {
            return Some(last_volume as u32);
        }
        let mut pairs = self
            .rows
            .windows(2)
            .map(|pair| (wide(&pair[0]), wide(&pair[1])));
        let ((low, volume), (high, next)) =
            pairs.find(|((low, _), (high, _))| (*low..*high).contains(&asked))?;
        Some((volume + (next - volume) * (asked - low) / (high - low)) as u32)
    }
}

#[derive(Default)]
pub struct Tally {
    sending: Option<Sending>,
    /// Rows up to which accepted files climbed, by whether they were drawn, and the
    /// addresses of all of them.
    lasts: [BTreeSet<usize>; 2],
    addresses: BTreeSet<u8>,
    /// Files that are judged as the rule told otherwise has it.
    told: Right,
    /// Checks that leave the image.
    left: Right,
    /// Frames of accepted files that are served, and tables that are whole then.
    served: Right,
    whole: Right,
    /// How many of these were sent in another order than that of the file.
    turned: usize,
    /// Questions of these that are refused neither 12 nor 13; levels from row 1's to
    /// row 352's that are answered as the file's rows have it, rows' levels that are
    /// answered with the row's volume, and other levels that are refused 14.
    answered: Right,
    within: Right,
    at_row: Right,
    beyond: Right,
    /// The rows at whose level a volume was asked.
    rows: BTreeSet<usize>,
}

impl Tally {
    /// Takes the next call; gives what is counted of it.
    pub fn take(&mut self, came: &Came) -> Vec<Kind> {
        if came.before.is_none() {
            self.sending = None; // another script
        }
        let mut kinds = Vec::new();
        if let (Some(('C', number, _)), true) = (came.before, SHOWING.contains(&came.call)) {
            kinds.push(Kind::Shown(*number == 0));
        }
        match File::new(came) {
            Some(file) => {
                kinds.extend(kinds_of(&file));
                self.check(came, &file);
            }
            None => self.send(came),
        }
        kinds
    }

    fn check(&mut self, came: &Came, file: &File) {
        self.told.note(told(file.bytes) == file.number);
        self.left.note(came.image == came.image_before);
        if file.number == 0 {
            self.lasts[usize::from(came.drawn)].insert(file.last());
            self.addresses.extend(file.pieces[0].byte(ADDRESS));
        }
        // What is checked between the frames of a file does not end its sending.
        let sending = self.sending.as_ref();
        let is_on = sending.is_some_and(|sending| sending.sent.is_some() && !sending.is_whole());
        if let (false, Some(sending)) = (is_on, Sending::new(file)) {
            self.sending = Some(sending);
        }
    }

    /// Any other call: a frame of the file, a question of its table, or the end of
    /// its sending.
    fn send(&mut self, came: &Came) {
        let Some(mut sending) = self.sending.take() else {
            return;
        };
        let keeps = match came.call {
            'F' => {
                let begins = came.number == 0 && came.input == [sending.address];
                let is_first = sending.sent.is_none();
                sending.sent = Some((Vec::new(), came.image.to_vec()));
                begins && is_first
            }
            'S' => self.serve(&mut sending, came),
            'H' | 'A' => {
                self.ask(&sending, came);
                true
            }
            _ => false,
        };
        if keeps {
            self.sending = Some(sending);
        }
    }

    /// Whether this is a frame of the file that was not sent yet, on the image as the
    /// others left it.
    fn serve(&mut self, sending: &mut Sending, came: &Came) -> bool {
        let place = sending.frames.iter().position(|frame| frame == came.input);
        let (Some(place), Some((places, image))) = (place, &mut sending.sent) else {
            return false;
        };
        if places.contains(&place) || image != came.image_before {
            return false;
        }
        self.served.note(came.number == 0);
        places.push(place);
        *image = came.image.to_vec();
        if places.len() == sending.frames.len() && !places.is_sorted() {
            self.turned += 1;
        }
        true
    }

    fn ask(&mut self, sending: &Sending, came: &Came) {
        let is_left = matches!(&sending.sent, Some((_, image)) if image == came.image);
        let number_at = |place: usize| {
            let bytes = came.input.get(place..place + 4)?.try_into().ok()?;
            Some(u32::from_be_bytes(bytes))
        };
        let is_its_own = number_at(0) == Some(u32::from(sending.table));
        if !is_left || !is_its_own || !sending.is_whole() {
            return;
        }
        match (came.call, number_at(4)) {
            ('A', Some(level)) => self.hold(sending, came, level),
            _ => self.whole.note(came.line == "H 0 11 0"),
        }
    }

    fn hold(&mut self, sending: &Sending, came: &Came, level: u32) {
        self.answered.note(!matches!(came.number, 12 | 13));
        let line = |volume: u32| format!("A 0 {volume}");
        let [first, last] = [0, ROWS - 1].map(|row| u32::from(sending.rows[row].level));
        match (first..=last).contains(&level) {
            true => self
                .within
                .note(sending.volume(level).map(line).as_deref() == Some(came.line)),
            false => self.beyond.note(came.line == "A 14 0"),
        }
        let of_level = |row: &Row| u32::from(row.level) == level;
        if let Some(place) = sending.rows.iter().position(of_level) {
            let row = sending.rows[place];
            self.at_row.note(came.line == line(row.volume.into()));
            self.rows.insert(place + 1);
        }
    }

    fn held(&self) -> [(Right, &'static str); 8] {
        [
            (
                self.told,
                "table files judged as the rule told otherwise has it",
            ),
            (self.left, "checks of a table file that leave the image"),
            (
                self.served,
                "frames of accepted files that a fresh image serves",
            ),
            (self.whole, "tables of accepted files that are whole then"),
            (
                self.answered,
                "questions of these refused neither 12 nor 13",
            ),
            (
                self.within,
                "levels from row 1 to row 352 answered as the file's rows have it",
            ),
            (self.at_row, "rows' levels answered with the row's volume"),
            (self.beyond, "levels beyond refused 14"),
        ]
    }

    pub fn missing(&self) -> Vec<String> {
        let held = self.held().into_iter();
        let missing = held.filter(|(of, _)| of.right < of.all || of.all == 0);
        let mut missing: Vec<String> = missing.map(|(_, name)| format!("all {name}")).collect();
        if self.turned == 0 {
            missing.push("table file: frames sent in another order".to_string());
        }
        if self.rows.len() < ROWS {
            missing.push("table file: a question at the level of every row".to_string());
        }
        missing
    }

    pub fn print(&self, out: &mut impl Write) -> io::Result<()> {
        let [fixed, drawn] = [0, 1].map(|drawn| self.lasts[drawn].len());
        writeln!(
            out,
            "\nrows up to which accepted files climb, fixed: {fixed}, drawn: {drawn} of {ROWS}\n\
             addresses of accepted files: {} of 255\n\
             files sent in another order than their own: {}\n\
             rows of these at whose level a volume was asked: {} of {ROWS}",
            self.addresses.len(),
            self.turned,
            self.rows.len(),
        )?;
        for (Right { right, all }, name) in self.held() {
            writeln!(out, "{name}: {right} of {all}")?;
        }
        Ok(())
    }
}
