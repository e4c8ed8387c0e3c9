//! The model's rules behind the block's C functions, to hold the block's time
//! against. They are the model's own files, so no rule is written twice.

#[path = "../../model/src"]
pub mod rules {
    pub mod block;

    #[cfg(not(feature = "table"))]
    mod digits;
    #[cfg(feature = "table")]
    use super::table as digits;
}

#[cfg(feature = "table")]
mod table;

use std::slice::{from_raw_parts, from_raw_parts_mut};

use rules::block::{self, Switch};

/// # Safety
/// Each pointer leads to as many bytes as its length says, and `len` to a
/// number; what is written is reached by one of them only.
#[no_mangle]
pub unsafe extern "C" fn izk_serve(
    frame: *const u8,
    frame_len: usize,
    sealed: u64,
    image: *mut u8,
    image_len: usize,
    out: *mut u8,
    out_len: usize,
    len: *mut usize,
) -> u8 {
    let frame = from_raw_parts(frame, frame_len);
    let image = from_raw_parts_mut(image, image_len);
    let out = from_raw_parts_mut(out, out_len);
    match block::serve(Switch::by_number(sealed), image, frame, out) {
        Ok(length) => {
            *len = length;
            0
        }
        Err(refusal) => {
            *len = 0;
            refusal.number()
        }
    }
}

/// # Safety
/// `image` leads to `image_len` bytes, `parts` and `missing` to a byte each.
#[no_mangle]
pub unsafe extern "C" fn izk_held_parts(
    image: *const u8,
    image_len: usize,
    table: u64,
    parts: *mut u8,
    missing: *mut u8,
) -> u8 {
    let image = from_raw_parts(image, image_len);
    match block::held_parts(image, table) {
        Ok((held, lowest)) => {
            *parts = held as u8;
            *missing = lowest as u8;
            0
        }
        Err(refusal) => {
            *parts = 0;
            *missing = 0;
            refusal.number()
        }
    }
}
