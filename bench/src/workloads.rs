//! What is timed.

use crate::input::{
    in_order, overlapping, queries, shuffled, two_sets, wide_queries, Entry, Input, Query,
};
use crate::measure::{Base, Case};
use crate::side::{MapSide, Run, SetSide};

/// A workload over the containers of a side `S`.
pub struct Workload<S> {
    pub name: &'static str,
    pub kind: Kind,
    pub run: fn(&S) -> Run,
    pub case: fn(usize) -> Case,
}

/// What the targets tell apart.
#[derive(Clone, Copy, PartialEq)]
pub enum Kind {
    /// Whole maps, two whole sets, and inserts at the end.
    Steady,
    /// Changes at random places.
    RandomChanges,
    /// Lookups, and queries that meet a few ranges.
    Lookups,
    /// All that is stored taken out at once.
    Emptying,
}

const APPENDS: Workload<MapSide> = Workload {
    name: "append in order",
    kind: Kind::Steady,
    run: |side| side.inserts,
    case: whole,
};

pub const DISJOINT_INSERTS: Workload<MapSide> = Workload {
    name: "random disjoint inserts",
    kind: Kind::RandomChanges,
    run: |side| side.inserts,
    case: |size| unasked(many(size, shuffled)),
};

const OVERLAPPING_INSERTS: Workload<MapSide> = Workload {
    name: "random overlapping inserts",
    kind: Kind::RandomChanges,
    run: |side| side.inserts,
    case: |size| unasked(many(size, overlapping)),
};

pub const LOOKUPS: Workload<MapSide> = Workload {
    name: "lookups, half of them misses",
    kind: Kind::Lookups,
    run: |side| side.lookups,
    case: key_by_key,
};

pub const ITERATION: Workload<MapSide> = Workload {
    name: "iteration",
    kind: Kind::Steady,
    run: |side| side.iterations,
    case: whole,
};

const REMOVALS: Workload<MapSide> = Workload {
    name: "`remove` of random ranges",
    kind: Kind::RandomChanges,
    run: |side| side.removals,
    case: |size| asked(size, queries(size, size / 2, 200)),
};

pub const OVERLAPS: Workload<MapSide> = Workload {
    name: "`overlapping`, ten ranges a query",
    kind: Kind::Lookups,
    run: |side| side.overlaps,
    case: ten_by_ten,
};

const GAPS: Workload<MapSide> = Workload {
    name: "`gaps`, ten ranges a query",
    kind: Kind::Lookups,
    run: |side| side.gaps,
    case: ten_by_ten,
};

const CLONES: Workload<MapSide> = Workload {
    name: "`clone`",
    kind: Kind::Steady,
    run: |side| side.clones,
    case: whole,
};

const COMPARISONS: Workload<MapSide> = Workload {
    name: "`==`",
    kind: Kind::Steady,
    run: |side| side.comparisons,
    case: whole,
};

// The clone is a part of it: what drops a map is the same work as what empties it, so that it can't be
// taken off.
const EMPTYINGS: Workload<MapSide> = Workload {
    name: "`clone`, and all taken out at once",
    kind: Kind::Emptying,
    run: |side| side.emptyings,
    case: whole,
};

/// Those over every map to numbers.
pub const OVER_MAPS: &[Workload<MapSide>] = &[
    APPENDS,
    DISJOINT_INSERTS,
    OVERLAPPING_INSERTS,
    LOOKUPS,
    ITERATION,
    REMOVALS,
    OVERLAPS,
    GAPS,
    CLONES,
    COMPARISONS,
    EMPTYINGS,
];

/// Those over a map to texts, where values cost most.
pub const OVER_TEXTS: &[Workload<MapSide>] = &[
    APPENDS,
    DISJOINT_INSERTS,
    OVERLAPPING_INSERTS,
    LOOKUPS,
    REMOVALS,
    CLONES,
    COMPARISONS,
];

/// Those that change a map at random places.
pub const CHANGES: &[Workload<MapSide>] = &[DISJOINT_INSERTS, OVERLAPPING_INSERTS, REMOVALS];

/// Those over sets.
pub const OVER_SETS: &[Workload<SetSide>] = &[
    Workload {
        name: "`union` to its end",
        kind: Kind::Steady,
        run: |side| side.unions,
        case: over_two,
    },
    Workload {
        name: "`intersection` to its end",
        kind: Kind::Steady,
        run: |side| side.intersections,
        case: over_two,
    },
    Workload {
        name: "`difference` to its end",
        kind: Kind::Steady,
        run: |side| side.differences,
        case: over_two,
    },
    Workload {
        name: "`bitor`",
        kind: Kind::Steady,
        run: |side| side.joined_sets,
        case: over_two,
    },
    Workload {
        name: "`bitand`",
        kind: Kind::Steady,
        run: |side| side.common_sets,
        case: over_two,
    },
    Workload {
        name: "`sub`",
        kind: Kind::Steady,
        run: |side| side.left_sets,
        case: over_two,
    },
    Workload {
        name: "`is_subset`, of equal sets",
        kind: Kind::Steady,
        run: |side| side.subsets,
        case: over_equal,
    },
    Workload {
        name: "`contains`, half of them misses",
        kind: Kind::Lookups,
        run: |side| side.members,
        case: key_by_key,
    },
    Workload {
        name: "`covers`",
        kind: Kind::Lookups,
        run: |side| side.coverings,
        case: few_keys,
    },
    Workload {
        name: "`overlaps`",
        kind: Kind::Lookups,
        run: |side| side.meetings,
        case: few_keys,
    },
];

// How often a round goes over one pair of sets before the next.
const TURNS: u32 = 16;

// As many lists of the size as make some thousands of entries.
fn list_count(size: usize) -> u64 {
    (4_000 / size).max(1) as u64
}

// Lists of the size, each of another seed.
fn many(size: usize, list: fn(usize, u64) -> Vec<Entry>) -> Vec<Vec<Entry>> {
    (0..list_count(size)).map(|seed| list(size, seed)).collect()
}

// The ranges in order, and nothing asked of them.
fn whole(size: usize) -> Case {
    unasked(vec![in_order(size)])
}

// Keys at random places, half of which no range has.
fn key_by_key(size: usize) -> Case {
    asked(size, queries(size, 65_536, 1))
}

// Queries of up to 50 keys at random places, which meet a range or two.
fn few_keys(size: usize) -> Case {
    asked(size, queries(size, 65_536, 50))
}

// Queries that each meet about ten ranges.
fn ten_by_ten(size: usize) -> Case {
    asked(size, wide_queries(size, 16_384))
}

fn asked(size: usize, queries: Vec<Query>) -> Case {
    Case {
        operations: queries.len(),
        inputs: vec![Input {
            entries: in_order(size),
            queries,
        }],
        turns: 1,
        base: Base::NoQueries,
    }
}

fn unasked(lists: Vec<Vec<Entry>>) -> Case {
    let input = |entries: Vec<Entry>| Input {
        entries,
        queries: vec![],
    };
    Case {
        operations: lists.iter().map(Vec::len).sum(),
        inputs: lists.into_iter().map(input).collect(),
        turns: 1,
        base: Base::NoRounds,
    }
}

// An operation is a range of one of the two sets. Each pair of sets has some turns before the next,
// so that making them, which is subtracted, doesn't take most of the time.
fn over_two(size: usize) -> Case {
    let inputs: Vec<Input> = (0..list_count(size))
        .map(|seed| two_sets(size, seed))
        .collect();
    let turns = if inputs.len() == 1 { 1 } else { TURNS };
    Case {
        operations: 2 * size * inputs.len() * turns as usize,
        inputs,
        turns,
        base: Base::NoRounds,
    }
}

// The second set has the ranges of the first. An operation is a range of one of them.
fn over_equal(size: usize) -> Case {
    let query = |entry: &Entry| Query {
        start: entry.start,
        end: entry.end,
    };
    let equal = |seed: u64| {
        let entries = two_sets(size, seed).entries;
        let queries = entries.iter().map(query).collect();
        Input { entries, queries }
    };
    let inputs: Vec<Input> = (0..list_count(size)).map(equal).collect();
    let turns = if inputs.len() == 1 { 1 } else { TURNS };
    Case {
        operations: size * inputs.len() * turns as usize,
        inputs,
        turns,
        base: Base::NoRounds,
    }
}
