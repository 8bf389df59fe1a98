//! The sets.

use super::{asked, contents, filled, in_turn, marked, mixed, repeat, Keys, Store};
use crate::input::{Entry, Query};
use crate::side::SetSide;
use rangemap::{RangeInclusiveSet, RangeSet};

pub const SET: SetSide = side::<RangeSet<u64>>();

pub const CLOSED_SET: SetSide = side::<RangeInclusiveSet<u64>>();

trait SetStore: Store {
    fn has(&self, key: u64) -> bool;
    fn mix_of_union(&self, other: &Self) -> u64;
    fn mix_of_intersection(&self, other: &Self) -> u64;
    fn mix_of_difference(&self, other: &Self) -> u64;
    fn joined_with(&self, other: &Self) -> Self;
    fn common_with(&self, other: &Self) -> Self;

    /// What the other set leaves free, which the Rust crate's user makes of gaps.
    fn without(&self, other: &Self) -> Self;

    fn is_within(&self, other: &Self) -> bool;
    fn covers(&self, query: &Query) -> bool;
    fn meets(&self, query: &Query) -> bool;
}

macro_rules! set_store {
    ($set:ident) => {
        impl Store for $set<u64> {
            fn empty() -> Self {
                $set::new()
            }

            fn insert(&mut self, start: u64, end: u64, _value: u32) {
                $set::insert(self, Keys::up_to(start, end));
            }

            fn len(&self) -> usize {
                $set::len(self)
            }

            fn digest(&self) -> u64 {
                in_turn(self.iter().map(Keys::number))
            }
        }

        impl SetStore for $set<u64> {
            fn has(&self, key: u64) -> bool {
                self.contains(&key)
            }

            fn mix_of_union(&self, other: &Self) -> u64 {
                mixed(self.union(other).map(|item| item.number()))
            }

            fn mix_of_intersection(&self, other: &Self) -> u64 {
                mixed(self.intersection(other).map(|item| item.number()))
            }

            fn mix_of_difference(&self, other: &Self) -> u64 {
                let parts = self.iter().flat_map(|range| other.gaps(range));
                mixed(parts.map(|part| part.number()))
            }

            fn joined_with(&self, other: &Self) -> Self {
                self | other
            }

            fn common_with(&self, other: &Self) -> Self {
                self & other
            }

            fn without(&self, other: &Self) -> Self {
                self.iter().flat_map(|range| other.gaps(range)).collect()
            }

            fn is_within(&self, other: &Self) -> bool {
                self.iter().all(|range| other.gaps(range).next().is_none())
            }

            fn covers(&self, query: &Query) -> bool {
                let range = Keys::up_to(query.start, query.end);
                let is_free = self.gaps(&range).next().is_some();
                !is_free
            }

            fn meets(&self, query: &Query) -> bool {
                self.overlaps(&Keys::up_to(query.start, query.end))
            }
        }
    };
}

set_store!(RangeSet);

set_store!(RangeInclusiveSet);

const fn side<S: SetStore>() -> SetSide {
    SetSide {
        contents: contents::<S>,
        unions: |left, right, rounds| over_two(left, right, rounds, S::mix_of_union),
        intersections: |left, right, rounds| over_two(left, right, rounds, S::mix_of_intersection),
        differences: |left, right, rounds| over_two(left, right, rounds, S::mix_of_difference),
        joined_sets: |left, right, rounds| {
            over_two(left, right, rounds, |left: &S, right| {
                left.joined_with(right).digest()
            })
        },
        common_sets: |left, right, rounds| {
            over_two(left, right, rounds, |left: &S, right| {
                left.common_with(right).digest()
            })
        },
        left_sets: |left, right, rounds| {
            over_two(left, right, rounds, |left: &S, right| {
                left.without(right).digest()
            })
        },
        subsets: |left, right, rounds| {
            over_two(left, right, rounds, |left: &S, right| {
                u64::from(left.is_within(right))
            })
        },
        members: |entries, queries, rounds| {
            asked(entries, queries, rounds, |set: &S, query| {
                u64::from(set.has(query.start))
            })
        },
        coverings: |entries, queries, rounds| {
            asked(entries, queries, rounds, |set: &S, query| {
                u64::from(set.covers(query))
            })
        },
        meetings: |entries, queries, rounds| {
            asked(entries, queries, rounds, |set: &S, query| {
                u64::from(set.meets(query))
            })
        },
        standing: |entries, _, rounds| repeat(rounds, |_| marked::<S>(entries).len() as u64),
    }
}

// Rounds over the sets of the entries and of the queries.
fn over_two<S: SetStore>(
    entries: &[Entry],
    queries: &[Query],
    rounds: u32,
    work: impl Fn(&S, &S) -> u64,
) -> u64 {
    let (left, right): (S, S) = (filled(entries), set_of(queries));
    repeat(rounds, |_| work(&left, &right))
}

fn set_of<S: SetStore>(ranges: &[Query]) -> S {
    let mut set = S::empty();
    for range in ranges {
        set.insert(range.start, range.end, 0);
    }
    set
}
