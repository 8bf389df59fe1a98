//! The maps.

use super::values::Stored;
use super::{asked, contents, filled, in_turn, marked, mixed, over_store, repeat, Keys, Store};
use crate::input::{Entry, Query};
use crate::side::MapSide;
use rangemap::{RangeInclusiveMap, RangeMap};
use std::hint::black_box;
use std::ops::{Range, RangeInclusive};

pub const HALF_OPEN: MapSide = side::<RangeMap<u64, u32>>();

pub const CLOSED: MapSide = side::<RangeInclusiveMap<u64, u32>>();

pub const TEXTS: MapSide = side::<RangeMap<u64, String>>();

trait MapStore: Store + Clone + PartialEq {
    fn remove(&mut self, start: u64, end: u64);
    fn number_at(&self, key: u64) -> Option<u64>;
    fn mix(&self) -> u64;
    fn mix_of_overlapping(&self, start: u64, end: u64) -> u64;
    fn mix_of_gaps(&self, start: u64, end: u64) -> u64;
}

// A number that tells the pair from others.
fn number_of<R: Keys, V: Stored>((range, value): (&R, &V)) -> u64 {
    range.number().wrapping_add(value.number())
}

macro_rules! map_store {
    ($map:ident, $range:ty) => {
        impl<V: Stored> Store for $map<u64, V> {
            fn empty() -> Self {
                $map::new()
            }

            fn insert(&mut self, start: u64, end: u64, value: u32) {
                $map::insert(self, Keys::up_to(start, end), V::made_of(value));
            }

            fn len(&self) -> usize {
                $map::len(self)
            }

            fn digest(&self) -> u64 {
                in_turn(self.iter().map(number_of))
            }
        }

        impl<V: Stored> MapStore for $map<u64, V> {
            fn remove(&mut self, start: u64, end: u64) {
                $map::remove(self, Keys::up_to(start, end));
            }

            fn number_at(&self, key: u64) -> Option<u64> {
                self.get(&key).map(Stored::number)
            }

            fn mix(&self) -> u64 {
                mixed(self.iter().map(number_of))
            }

            fn mix_of_overlapping(&self, start: u64, end: u64) -> u64 {
                let query: $range = Keys::up_to(start, end);
                mixed(self.overlapping(&query).map(number_of))
            }

            fn mix_of_gaps(&self, start: u64, end: u64) -> u64 {
                mixed(self.gaps(&Keys::up_to(start, end)).map(|gap| gap.number()))
            }
        }
    };
}

map_store!(RangeMap, Range<u64>);

map_store!(RangeInclusiveMap, RangeInclusive<u64>);

const fn side<S: MapStore>() -> MapSide {
    MapSide {
        contents: contents::<S>,
        inserts: |entries, _, rounds| repeat(rounds, |_| filled::<S>(entries).len() as u64),
        lookups: |entries, queries, rounds| {
            asked(entries, queries, rounds, |map: &S, query| {
                map.number_at(query.start).unwrap_or(0)
            })
        },
        iterations: |entries, _, rounds| over_store(entries, rounds, S::mix),
        removals: |entries, queries, rounds| {
            over_store(entries, rounds, |map: &S| without(map, queries).digest())
        },
        overlaps: |entries, queries, rounds| {
            asked(entries, queries, rounds, |map: &S, query| {
                map.mix_of_overlapping(query.start, query.end)
            })
        },
        gaps: |entries, queries, rounds| {
            asked(entries, queries, rounds, |map: &S, query| {
                map.mix_of_gaps(query.start, query.end)
            })
        },
        clones: |entries, _, rounds| {
            over_store(entries, rounds, |map: &S| {
                black_box(map.clone()).len() as u64
            })
        },
        comparisons: |entries, _, rounds| {
            let map: S = filled(entries);
            let others = [map.clone(), map.clone()];
            repeat(rounds, |round| u64::from(map == others[round as usize % 2]))
        },
        emptyings: |entries, _, rounds| {
            let behind = end_of(entries);
            over_store(entries, rounds, |map: &S| emptied(map, behind).len() as u64)
        },
        standing: |entries, _, rounds| repeat(rounds, |_| marked::<S>(entries).len() as u64),
    }
}

fn emptied<S: MapStore>(map: &S, behind: u64) -> S {
    let mut rest = map.clone();
    if behind > 0 {
        rest.remove(0, behind);
    }
    rest
}

// The key behind all entries.
fn end_of(entries: &[Entry]) -> u64 {
    entries.iter().map(|entry| entry.end).max().unwrap_or(0)
}

fn without<S: MapStore>(map: &S, queries: &[Query]) -> S {
    let mut rest = map.clone();
    for query in queries {
        rest.remove(query.start, query.end);
    }
    rest
}
