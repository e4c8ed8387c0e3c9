//! The probe's image buffer and its second one as the fixed calls find and
//! leave them, from what is written there alone.

use std::mem::swap;

use super::{Moved, Step};
use crate::block::IMAGE_BYTES;
use crate::probe::{digest, IMAGE_ROOM};

/// Something that is done to the buffers behind the block's back.
#[derive(Clone)]
pub enum Change {
    /// Bytes of the image buffer change, and where.
    Bytes(usize, Vec<u8>),
    /// Every byte of the image buffer becomes this.
    Fill(u8),
    /// The image becomes so long.
    Length(usize),
    /// The image buffer and the second one change places.
    Exchange,
}

struct Buffer {
    bytes: [u8; IMAGE_ROOM],
    length: usize,
    /// Taken anew only when a byte may have changed, for it takes long.
    digest: Option<u64>,
}

impl Buffer {
    fn empty() -> Self {
        Buffer {
            bytes: [0; IMAGE_ROOM],
            length: IMAGE_BYTES,
            digest: None,
        }
    }

    fn put(&mut self, offset: usize, bytes: &[u8]) {
        self.bytes[offset..offset + bytes.len()].copy_from_slice(bytes);
        self.digest = None;
    }

    fn digest(&mut self) -> u64 {
        let (bytes, length) = (&self.bytes, self.length);
        *self.digest.get_or_insert_with(|| digest(&bytes[..length]))
    }
}

pub struct Buffers {
    image: Buffer,
    second: Buffer,
}

impl Buffers {
    /// With a fresh image of this address.
    pub fn new(address: u8) -> Self {
        let mut image = Buffer::empty();
        image.put(0, b"IZK\x00\x02");
        image.put(5, &[address]);
        Buffers {
            image,
            second: Buffer::empty(),
        }
    }

    pub fn change(&mut self, change: &Change) {
        match change {
            Change::Bytes(offset, bytes) => self.image.put(*offset, bytes),
            Change::Fill(byte) => self.image.put(0, &[*byte; IMAGE_ROOM]),
            Change::Length(length) => {
                self.image.length = *length;
                self.image.digest = None;
            }
            Change::Exchange => swap(&mut self.image, &mut self.second),
        }
    }

    /// Does what the step does, and what is done before it.
    pub fn take(&mut self, step: &Step) {
        for change in &step.changed {
            self.change(change);
        }
        for (offset, bytes) in &step.stored {
            self.image.put(*offset, bytes);
        }
        if let Some(moved) = &step.moved {
            self.land(moved);
        }
    }

    /// Document 02, wish 8: of the bytes that both versions have, the version
    /// alone becomes another.
    fn land(&mut self, moved: &Moved) {
        self.second.put(0, &self.image.bytes[..23_753]);
        self.second.put(3, &[0, moved.version]);
        self.second.put(23_753, &moved.words);
    }

    pub fn image(&mut self) -> u64 {
        self.image.digest()
    }

    pub fn second(&mut self) -> u64 {
        self.second.digest()
    }
}
