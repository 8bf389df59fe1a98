//! What the Rust crate has no call for, worked out of its sets and maps key by key: whether a range is
//! covered, how two sets lie to each other, and what one has that the other lacks.
//!
//! The ends of ranges divide the keys into pieces, each of which a container covers wholly or not at all,
//! so that the first key of a piece tells for all of them.

use crate::container::{Container, KeyOf, RangeOf, Set};
use crate::ranges::KeyRange;

/// Whether each key of a range has a value.
pub fn covers<C: Container>(container: &C, range: &RangeOf<C>) -> bool {
    let mut ranges = ranges_of(container);
    if !range.holds_key() {
        return true;
    }
    ranges.push(range.clone());
    let pieces = C::pieces(&ranges);
    let mut asked = pieces
        .iter()
        .filter(|piece| range.has(first_key::<C>(piece)));
    asked.all(|piece| covers_first(container, piece))
}

/// Whether each key of the left set is in the right one.
pub fn is_subset<C: Set>(left: &C, right: &C) -> bool {
    without(left, right).has_none()
}

/// Whether no key is in both sets.
pub fn is_disjoint<C: Set>(left: &C, right: &C) -> bool {
    combined(left, right, |in_left, in_right| in_left && in_right).has_none()
}

/// The set of the keys that the left set has and the right one lacks.
pub fn without<C: Set>(left: &C, right: &C) -> C {
    combined(left, right, |in_left, in_right| in_left && !in_right)
}

/// The set of the keys that just one of the sets has.
pub fn in_one<C: Set>(left: &C, right: &C) -> C {
    combined(left, right, |in_left, in_right| in_left != in_right)
}

// The set of the keys of which something holds, which is told whether either set has them.
fn combined<C: Set>(left: &C, right: &C, holds: fn(bool, bool) -> bool) -> C {
    let mut ranges = ranges_of(left);
    ranges.extend(ranges_of(right));
    let pieces = C::pieces(&ranges).into_iter();
    let held = pieces.filter(|piece| holds(covers_first(left, piece), covers_first(right, piece)));
    C::filled(held.map(|piece| (piece, ())).collect())
}

fn ranges_of<C: Container>(container: &C) -> Vec<RangeOf<C>> {
    container.pairs().map(|(range, _)| range.clone()).collect()
}

fn first_key<C: Container>(piece: &RangeOf<C>) -> &KeyOf<C> {
    piece.ends().0
}

fn covers_first<C: Container>(container: &C, piece: &RangeOf<C>) -> bool {
    container.find(first_key::<C>(piece)).is_some()
}
