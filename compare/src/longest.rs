//! Document 02's longest list: the file whose query reaches it, and the sets in it.

use crate::generate::{text, to_lines};
use crate::shapes::at_least;

/// "At least j of the first i actions", i to 16 and j to 8; the query wants at least 8 of 16.
pub fn longest() -> Vec<u8> {
    text(&to_lines(&at_least(8, 16)))
}

/// The sets of so many of the actions, in rising order. No query has more slim sets than there are sets of half of
/// the actions.
pub fn sets_of(members: usize, actions: usize) -> Vec<u32> {
    (0..1 << actions).filter(|set: &u32| set.count_ones() as usize == members).collect()
}
