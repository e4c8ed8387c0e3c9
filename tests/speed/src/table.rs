//! Reading a frame's digits by a table of all 256 characters, without a branch
//! on any of them: what a programmer writes who wants it quick. It stands in the
//! place of the model's `digits`, and gives the same.

/// What stands in the table for a character that is no digit: above them all.
const NO_DIGIT: u8 = 16;

static VALUES: [u8; 256] = values();

const fn values() -> [u8; 256] {
    let (capital, small) = (b"0123456789ABCDEF", b"0123456789abcdef");
    let mut values = [NO_DIGIT; 256];
    let mut value = 0;
    while value < NO_DIGIT {
        values[capital[value as usize] as usize] = value;
        values[small[value as usize] as usize] = value;
        value += 1;
    }
    values
}

/// Fills `body` from the characters and gives the running total of its bytes.
/// What was seen is judged once, at the end.
pub fn read(characters: &[u8], body: &mut [u8]) -> Option<u8> {
    let (mut total, mut seen) = (0u8, 0);
    for (byte, pair) in body.iter_mut().zip(characters.chunks_exact(2)) {
        let high = VALUES[usize::from(pair[0])];
        let low = VALUES[usize::from(pair[1])];
        seen |= high | low;
        *byte = high << 4 | low;
        total = total.wrapping_add(*byte);
    }
    (seen < NO_DIGIT).then_some(total)
}
