//! The 32 items that have a signature, and where the image keeps them and
//! their words (document 01, the image; document 02, wish 7). All places are
//! written out and nothing is taken from `block`, so a slip in either shows.

use std::ops::Range;

/// A table, a channel's constants or an error table.
pub struct Item {
    /// The commands that write it, that read it and that ask its signature; of
    /// a table the first two name one part.
    pub commands: [u8; 3],
    /// The number that they name it by.
    pub number: u8,
    pub offset: usize,
    pub bytes: usize,
    /// Where its word lies, high byte first.
    pub word: usize,
}

/// Where all the words lie.
pub const WORDS: Range<usize> = 23_753..23_817;

/// In the order of their words.
pub static ITEMS: [Item; 32] = [
    table(1, 1225, 23_753),
    table(2, 2633, 23_755),
    table(3, 4041, 23_757),
    table(4, 5449, 23_759),
    table(5, 6857, 23_761),
    table(6, 8265, 23_763),
    table(7, 9673, 23_765),
    table(8, 11_081, 23_767),
    table(11, 12_489, 23_769),
    table(12, 13_897, 23_771),
    table(13, 15_305, 23_773),
    table(14, 16_713, 23_775),
    table(15, 18_121, 23_777),
    table(16, 19_529, 23_779),
    table(17, 20_937, 23_781),
    table(18, 22_345, 23_783),
    constants(0, 49, 23_785),
    constants(1, 132, 23_787),
    constants(2, 215, 23_789),
    constants(3, 298, 23_791),
    constants(4, 381, 23_793),
    constants(5, 464, 23_795),
    constants(6, 547, 23_797),
    constants(7, 630, 23_799),
    errors(1, 713, 23_801),
    errors(2, 777, 23_803),
    errors(3, 841, 23_805),
    errors(4, 905, 23_807),
    errors(5, 969, 23_809),
    errors(6, 1033, 23_811),
    errors(7, 1097, 23_813),
    errors(8, 1161, 23_815),
];

const fn table(number: u8, offset: usize, word: usize) -> Item {
    Item {
        commands: [59, 60, 61],
        number,
        offset,
        bytes: 1408,
        word,
    }
}

const fn constants(number: u8, offset: usize, word: usize) -> Item {
    Item {
        commands: [53, 54, 55],
        number,
        offset,
        bytes: 83,
        word,
    }
}

const fn errors(number: u8, offset: usize, word: usize) -> Item {
    Item {
        commands: [62, 63, 64],
        number,
        offset,
        bytes: 64,
        word,
    }
}

/// The item that a command names by this number.
pub fn item(command: u8, number: u8) -> Option<&'static Item> {
    ITEMS
        .iter()
        .find(|item| item.commands.contains(&command) && item.number == number)
}

impl Item {
    /// The signature as document 01 has it: all the item's stored bytes added
    /// up, remainder by 65,536. No block need do this any more.
    pub fn full_sum(&self, image: &[u8]) -> u16 {
        (sum(&image[self.offset..self.offset + self.bytes]) % 65_536) as u16
    }

    /// The signature as it is kept in the image, true or false.
    pub fn stored(&self, image: &[u8]) -> u16 {
        u16::from_be_bytes([image[self.word], image[self.word + 1]])
    }

    pub fn is_false(&self, image: &[u8]) -> bool {
        self.stored(image) != self.full_sum(image)
    }
}

pub fn sum(bytes: &[u8]) -> u32 {
    bytes.iter().map(|&byte| u32::from(byte)).sum()
}
