//! Questions by what they meet. Each name begins with the number that they get.

mod answered;
mod refused;

use super::Question;

/// What a question meets, and whether one does.
pub type Row = (&'static str, fn(&Question) -> bool);

/// All of them, always in the same order.
pub fn all() -> impl Iterator<Item = &'static Row> {
    let lists: [&[Row]; 3] = [&answered::ROWS, &refused::ROWS, &refused::WIDE];
    lists.into_iter().flatten()
}
