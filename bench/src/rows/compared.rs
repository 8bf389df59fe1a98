//! Containers that are compared and hashed.

use std::cmp::Ordering;
use std::hash::{DefaultHasher, Hash, Hasher};

/// Whether containers lie in ascending order: each is compared with all of them.
pub fn are_ascending<C: Ord>(made: &[C]) -> bool {
    made.iter().enumerate().all(|(place, one)| {
        let mut others = made.iter().enumerate();
        others.all(|(at, other)| lies(one, other, place.cmp(&at)))
    })
}

// Whether one lies so to the other, by `cmp`, by `partial_cmp` and by the operators.
fn lies<C: Ord>(one: &C, other: &C, order: Ordering) -> bool {
    one.cmp(other) == order
        && one.partial_cmp(other) == Some(order)
        && (one == other) == order.is_eq()
        && (one < other) == order.is_lt()
        && (one > other) == order.is_gt()
}

/// Whether the first two of some containers are equal and hash alike, and no other is equal to them or
/// hashes so.
pub fn are_hashed<C: Ord + Hash>(made: &[C]) -> bool {
    let Some(first) = made.first() else {
        return false;
    };
    made.len() > 2
        && made.iter().enumerate().all(|(place, other)| {
            let is_same = place < 2;
            (first == other) == is_same && (hash(first) == hash(other)) == is_same
        })
}

fn hash<C: Hash>(container: &C) -> u64 {
    let mut hasher = DefaultHasher::new();
    container.hash(&mut hasher);
    hasher.finish()
}
