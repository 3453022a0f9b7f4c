//! The search for a key.

use super::id_at;
use crate::numbers::{id_number, Id};
use std::cmp::Ordering;

/// The index of the key, if the search meets it, and the count of keys that
/// it compared on the way. The rule is followed even where keys do not
/// increase; a key that is there may then be missed.
pub fn halving(keys: &[u8], key: &Id) -> (Option<usize>, u32) {
    let key = id_number(key);
    let (mut low, mut high) = (0, keys.len() / 16);
    let mut compared = 0;
    while low < high {
        let middle = low + (high - low) / 2;
        compared += 1;
        match id_at(keys, middle).cmp(&key) {
            Ordering::Equal => return (Some(middle), compared),
            Ordering::Less => low = middle + 1,
            Ordering::Greater => high = middle,
        }
    }
    (None, compared)
}
