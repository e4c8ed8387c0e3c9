//! Document 02, wish 8: an image is moved from version 1 to version 2 and back,
//! from one buffer into another. The source is only read. Whatever the target
//! held is gone once a move is done, and stays where it is refused.

use std::ops::Range;

use super::{
    put_word, span, usable_in, Refusal, Version, BEFORE_CONSTANTS, BEFORE_ERRORS, CONSTANTS,
    CONSTANTS_BYTES, ERRORS, ERRORS_BYTES, FIRST, SECOND, SIGNATURES, TABLES, TABLE_BYTES,
};

/// Moves a version 1 image up and adds its signatures, all of them true.
pub fn move_up(source: &[u8], target: &mut [u8]) -> Result<(), Refusal> {
    carry(source, &FIRST, target, &SECOND)?;
    for table in 0..16 {
        sign(target, table, span(TABLES, table, TABLE_BYTES));
    }
    for index in 0..8 {
        let constants = span(CONSTANTS, index, CONSTANTS_BYTES);
        sign(target, BEFORE_CONSTANTS + index, constants);
        let errors = span(ERRORS, index, ERRORS_BYTES);
        sign(target, BEFORE_ERRORS + index, errors);
    }
    Ok(())
}

/// Moves a version 2 image down and drops its signatures, be they true or false.
pub fn move_down(source: &[u8], target: &mut [u8]) -> Result<(), Refusal> {
    carry(source, &SECOND, target, &FIRST)
}

/// Judges both buffers, then copies what both versions hold. The number of the
/// version is all that differs up to the signatures.
fn carry(source: &[u8], from: &Version, target: &mut [u8], to: &Version) -> Result<(), Refusal> {
    if !usable_in(from, source) || target.len() != to.bytes {
        return Err(Refusal::Image);
    }
    target[..SIGNATURES].copy_from_slice(&source[..SIGNATURES]);
    target[..to.head.len()].copy_from_slice(&to.head);
    Ok(())
}

/// Puts the sum of an item's bytes, remainder by 65,536, at its place among the
/// signatures.
fn sign(image: &mut [u8], signature: usize, item: Range<usize>) {
    let sum: u32 = image[item].iter().map(|&byte| u32::from(byte)).sum();
    put_word(image, span(SIGNATURES, signature, 2), sum as u16);
}
