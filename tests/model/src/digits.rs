//! Reading a frame's digits. It stands beside the rules, and they take it from
//! the module that they are in, because the speed test (tests/speed) has the
//! same rules read their digits in another way.

/// Fills `body` from the characters, two for a byte, and gives the running
/// total of its bytes, from which the carries are dropped (document 02, wish
/// 4). Nothing where a character is no digit; `body` is then of no use.
pub fn read(characters: &[u8], body: &mut [u8]) -> Option<u8> {
    let mut total = 0u8;
    for (byte, pair) in body.iter_mut().zip(characters.chunks_exact(2)) {
        *byte = half(pair[0])? << 4 | half(pair[1])?;
        total = total.wrapping_add(*byte);
    }
    Some(total)
}

/// Document 02, wish 2: reading takes either case in each digit. Characters
/// outside the three ranges are no digits.
fn half(character: u8) -> Option<u8> {
    match character {
        b'0'..=b'9' => Some(character - b'0'),
        b'A'..=b'F' => Some(character - b'A' + 10),
        b'a'..=b'f' => Some(character - b'a' + 10),
        _ => None,
    }
}
