//! The Rust crate's side: the same workloads as in `crates/bench_workloads/src/workloads.rt`.

use crate::input::{Entry, Query};
use crate::side::MARK;
use std::hint::black_box;
use std::ops::{Range, RangeInclusive};

mod maps;
mod sets;
mod values;

pub use maps::{CLOSED, HALF_OPEN, TEXTS};
pub use sets::{CLOSED_SET, SET};

/// A range of keys, told by its first key and the one behind its last.
trait Keys {
    /// The range from its first key up to the one behind its last.
    fn up_to(first: u64, behind: u64) -> Self;

    /// A number that tells the range from others.
    fn number(&self) -> u64;
}

impl Keys for Range<u64> {
    fn up_to(first: u64, behind: u64) -> Self {
        first..behind
    }

    fn number(&self) -> u64 {
        number_of(self.start, self.end)
    }
}

impl Keys for RangeInclusive<u64> {
    fn up_to(first: u64, behind: u64) -> Self {
        first..=behind - 1
    }

    fn number(&self) -> u64 {
        number_of(*self.start(), self.end() + 1)
    }
}

fn number_of(first: u64, behind: u64) -> u64 {
    first.wrapping_add(behind.wrapping_mul(3))
}

/// A map or a set, as it is filled and compared.
trait Store {
    fn empty() -> Self;
    fn insert(&mut self, start: u64, end: u64, value: u32);
    fn len(&self) -> usize;

    /// A digest of all pairs in their order.
    fn digest(&self) -> u64;
}

fn filled<S: Store>(entries: &[Entry]) -> S {
    let mut store = S::empty();
    for entry in entries {
        store.insert(entry.start, entry.end, entry.value);
    }
    store
}

// The same, and while it stands a block of `MARK` bytes.
fn marked<S: Store>(entries: &[Entry]) -> S {
    let store = filled(entries);
    black_box(Vec::<u8>::with_capacity(MARK));
    store
}

// Rounds over one store of the entries.
fn over_store<S: Store>(entries: &[Entry], rounds: u32, work: impl Fn(&S) -> u64) -> u64 {
    let store = filled(entries);
    repeat(rounds, |_| work(&store))
}

// Rounds in which one store of the entries is asked every query, and the answers are added.
fn asked<S: Store>(
    entries: &[Entry],
    queries: &[Query],
    rounds: u32,
    answer: impl Fn(&S, &Query) -> u64,
) -> u64 {
    over_store(entries, rounds, |store| {
        sum(queries, |query| answer(store, query))
    })
}

// The digest of all pairs or items.
fn contents<S: Store>(entries: &[Entry], _queries: &[Query], rounds: u32) -> u64 {
    over_store(entries, rounds, S::digest)
}

// The digest of what each round answers.
fn repeat(rounds: u32, mut work: impl FnMut(u32) -> u64) -> u64 {
    let mut digest = 0;
    for round in 0..rounds {
        digest = followed_by(digest, work(round));
    }
    digest
}

// The sum of what each query is answered.
fn sum(queries: &[Query], answer: impl Fn(&Query) -> u64) -> u64 {
    queries.iter().map(answer).fold(0, u64::wrapping_add)
}

fn followed_by(digest: u64, next: u64) -> u64 {
    digest
        .wrapping_mul(0x9E37_79B9_7F4A_7C15)
        .wrapping_add(next)
}

// The numbers of items, mixed by exclusive or.
fn mixed(numbers: impl Iterator<Item = u64>) -> u64 {
    let mut mix = 0;
    for number in numbers {
        mix ^= number;
    }
    mix
}

// A digest of the numbers of items, which depends on their order.
fn in_turn(numbers: impl Iterator<Item = u64>) -> u64 {
    let mut digest = 0;
    for number in numbers {
        digest = followed_by(digest, number);
    }
    digest
}
