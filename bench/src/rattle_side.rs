//! The proved library's side.

use crate::side::{MapSide, SetSide};

// A function of `crates/bench_map/src/exports.rt`, over the container that has the number in
// `crates/bench_workloads/src/containers.rt`. A slice is a pointer and a length there.
macro_rules! run {
    ($container:literal, $export:ident) => {
        |entries, queries, rounds| {
            extern "C" {
                fn $export(
                    container: u32,
                    entries: *const crate::input::Entry,
                    entry_count: usize,
                    queries: *const crate::input::Query,
                    query_count: usize,
                    rounds: u32,
                ) -> u64;
            }
            // SAFETY: the export reads the two slices, and asks nothing else of its caller.
            unsafe {
                $export(
                    $container,
                    entries.as_ptr(),
                    entries.len(),
                    queries.as_ptr(),
                    queries.len(),
                    rounds,
                )
            }
        }
    };
}

macro_rules! map_side {
    ($container:literal) => {
        MapSide {
            contents: run!($container, bench_contents),
            inserts: run!($container, bench_inserts),
            lookups: run!($container, bench_lookups),
            iterations: run!($container, bench_iterations),
            removals: run!($container, bench_removals),
            overlaps: run!($container, bench_overlaps),
            gaps: run!($container, bench_gaps),
            clones: run!($container, bench_clones),
            comparisons: run!($container, bench_comparisons),
            emptyings: run!($container, bench_emptyings),
            standing: run!($container, bench_standing),
        }
    };
}

macro_rules! set_side {
    ($container:literal) => {
        SetSide {
            contents: run!($container, bench_contents),
            unions: run!($container, bench_unions),
            intersections: run!($container, bench_intersections),
            differences: run!($container, bench_differences),
            joined_sets: run!($container, bench_joined_sets),
            common_sets: run!($container, bench_common_sets),
            left_sets: run!($container, bench_left_sets),
            subsets: run!($container, bench_subsets),
            members: run!($container, bench_members),
            coverings: run!($container, bench_coverings),
            meetings: run!($container, bench_meetings),
            standing: run!($container, bench_standing),
        }
    };
}

pub const HALF_OPEN: MapSide = map_side!(0);

pub const CLOSED: MapSide = map_side!(1);

pub const TREE: MapSide = map_side!(2);

pub const TEXTS: MapSide = map_side!(3);

pub const CHUNKED: MapSide = map_side!(4);

pub const CLOSED_CHUNKED: MapSide = map_side!(5);

pub const SET: SetSide = set_side!(6);

pub const CLOSED_SET: SetSide = set_side!(7);

pub const CHUNKED_SET: SetSide = set_side!(8);

pub const CLOSED_CHUNKED_SET: SetSide = set_side!(9);
