//! The workloads that both sides have.

use crate::input::{Entry, Query};

/// Makes a container of the entries, does its work as often as the number says, and answers a
/// digest of what the container answered.
pub type Run = fn(&[Entry], &[Query], u32) -> u64;

/// One side's workloads over a map.
pub struct MapSide {
    pub contents: Run,
    pub inserts: Run,
    pub lookups: Run,
    pub iterations: Run,
    pub removals: Run,
    pub overlaps: Run,
    pub gaps: Run,
    pub clones: Run,
    pub comparisons: Run,
    pub emptyings: Run,
    /// A new container each round, and a block of `MARK` bytes while it stands. The program `bytes`
    /// alone runs it.
    #[allow(dead_code)]
    pub standing: Run,
}

/// The bytes of that block, as `crates/bench_workloads/src/workloads.rt` says.
pub const MARK: usize = 4_099;

/// One side's workloads over a set. The queries are the ranges of a second set, except of `members`,
/// `coverings` and `meetings`.
pub struct SetSide {
    pub contents: Run,
    pub unions: Run,
    pub intersections: Run,
    pub differences: Run,
    pub joined_sets: Run,
    pub common_sets: Run,
    pub left_sets: Run,
    pub subsets: Run,
    pub members: Run,
    pub coverings: Run,
    pub meetings: Run,
    /// As of a map.
    #[allow(dead_code)]
    pub standing: Run,
}
