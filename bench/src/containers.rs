//! The containers, each with its workloads and targets.

use crate::measure::Measured;
use crate::side::{MapSide, Run, SetSide};
use crate::workloads::{Kind, Workload, OVER_MAPS, OVER_SETS, OVER_TEXTS};
use crate::{rattle_side, rust_side};

/// A container of the library, beside the one of the Rust crate that it is compared with.
pub struct Container<S: 'static> {
    pub name: &'static str,
    pub rust: S,
    pub rattle: S,
    pub contents: fn(&S) -> Run,
    pub workloads: &'static [Workload<S>],
    /// The greatest ratio that is wanted at a size.
    pub target: fn(Kind, usize) -> Option<f64>,
    /// The greatest size at which changes at random places are timed.
    pub most_changed: usize,
}

impl<S> Container<S> {
    /// Times a workload at a size.
    pub fn measure(&self, workload: &Workload<S>, size: usize) -> Measured {
        let both = |run: fn(&S) -> Run| [run(&self.rust), run(&self.rattle)];
        (workload.case)(size).measure(both(self.contents), both(workload.run))
    }

    /// Whether a workload is timed at a size: not where it would take hours.
    pub fn is_timed(&self, workload: &Workload<S>, size: usize) -> bool {
        workload.kind != Kind::RandomChanges || size <= self.most_changed
    }
}

pub const HALF_OPEN: Container<MapSide> = Container {
    name: "RangeMap",
    rust: rust_side::HALF_OPEN,
    rattle: rattle_side::HALF_OPEN,
    contents: |side| side.contents,
    workloads: OVER_MAPS,
    target: in_a_vector,
    most_changed: 100_000,
};

pub const CLOSED: Container<MapSide> = Container {
    name: "RangeInclusiveMap",
    rust: rust_side::CLOSED,
    rattle: rattle_side::CLOSED,
    ..HALF_OPEN
};

pub const TREE: Container<MapSide> = Container {
    name: "tree_map::RangeMap",
    rattle: rattle_side::TREE,
    target: in_a_tree,
    most_changed: usize::MAX,
    ..HALF_OPEN
};

pub const TEXTS: Container<MapSide> = Container {
    name: "RangeMap<u64, String>",
    rust: rust_side::TEXTS,
    rattle: rattle_side::TEXTS,
    workloads: OVER_TEXTS,
    ..HALF_OPEN
};

pub const SET: Container<SetSide> = Container {
    name: "RangeSet",
    rust: rust_side::SET,
    rattle: rattle_side::SET,
    contents: |side| side.contents,
    workloads: OVER_SETS,
    target: in_a_vector,
    most_changed: usize::MAX,
};

pub const CLOSED_SET: Container<SetSide> = Container {
    name: "RangeInclusiveSet",
    rust: rust_side::CLOSED_SET,
    rattle: rattle_side::CLOSED_SET,
    ..SET
};

pub const CHUNKED: Container<MapSide> = Container {
    name: "chunked::RangeMap",
    rattle: rattle_side::CHUNKED,
    target: in_chunks,
    most_changed: usize::MAX,
    ..HALF_OPEN
};

pub const CLOSED_CHUNKED: Container<MapSide> = Container {
    name: "chunked::RangeInclusiveMap",
    rust: rust_side::CLOSED,
    rattle: rattle_side::CLOSED_CHUNKED,
    ..CHUNKED
};

pub const CHUNKED_SET: Container<SetSide> = Container {
    name: "chunked::RangeSet",
    rattle: rattle_side::CHUNKED_SET,
    target: in_chunks,
    ..SET
};

pub const CLOSED_CHUNKED_SET: Container<SetSide> = Container {
    name: "chunked::RangeInclusiveSet",
    rust: rust_side::CLOSED_SET,
    rattle: rattle_side::CLOSED_CHUNKED_SET,
    ..CHUNKED_SET
};

/// What is wanted where the ranges are in a vector.
pub const VECTOR_TARGET: f64 = 0.75;

fn in_a_vector(kind: Kind, size: usize) -> Option<f64> {
    (kind != Kind::RandomChanges || size <= 1_000).then_some(VECTOR_TARGET)
}

fn in_a_tree(kind: Kind, size: usize) -> Option<f64> {
    (kind == Kind::RandomChanges && size >= 1_000).then_some(1.0)
}

fn in_chunks(kind: Kind, size: usize) -> Option<f64> {
    Some(match (kind, size) {
        (Kind::Emptying, _) => 0.1,
        (Kind::RandomChanges, 1_000_000..) => 1.0,
        (Kind::Lookups, 1_000_000..) => 1.2,
        (Kind::Lookups, 1_001..) => 1.0,
        _ => VECTOR_TARGET,
    })
}
