//! The desk program: frames in, one line of text out for each.

use crate::block::{self, Switch, IMAGE_BYTES};

pub const INPUT_MAX: usize = 65_536;

const ADDRESS: u8 = 1;

/// The input cut after each line feed. What follows the last one counts too.
pub fn pieces(input: &[u8]) -> impl Iterator<Item = &[u8]> {
    input.split_inclusive(|&byte| byte == b'\n')
}

/// The desk's lines, without their line feeds.
pub fn lines(input: &[u8]) -> Vec<String> {
    if input.len() > INPUT_MAX {
        return vec!["too long".to_string()];
    }
    let mut desk = Desk::new();
    pieces(input).map(|piece| desk.step(piece)).collect()
}

/// The image, fresh before the first piece, and the output.
pub struct Desk {
    image: [u8; IMAGE_BYTES],
    output: [u8; 269],
}

impl Desk {
    pub fn new() -> Self {
        let mut image = [0; IMAGE_BYTES];
        block::fresh(&mut image, ADDRESS).expect("the length and the address are right");
        Desk {
            image,
            output: [0; 269],
        }
    }

    pub fn image(&self) -> &[u8] {
        &self.image
    }

    /// How long the output is.
    pub fn room(&self) -> usize {
        self.output.len()
    }

    /// Serves a piece and gives its line. The desk is always unsealed (document
    /// 02, wish 11).
    pub fn step(&mut self, piece: &[u8]) -> String {
        match block::serve(Switch::Unsealed, &mut self.image, piece, &mut self.output) {
            Ok(length) => format!("0 {}", String::from_utf8_lossy(&self.output[..length - 2])),
            Err(refusal) => refusal.number().to_string(),
        }
    }
}
