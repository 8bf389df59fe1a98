//! Times the proved library beside the Rust crate, and prints tables in Markdown.
//!
//! Each answer of one side is compared with the other's, and a difference ends the run with an
//! error.
//!
//! To add a container: its type in `store.rt` of `crates/bench_workloads` (of a set `SetStore`
//! too), its number in `containers.rt` there and its arm in `dispatch.rt`, and the number in
//! `rattle_side`; its `Container` in `containers`, and its name in `measure` below and in `bytes`;
//! where the Rust crate has another one, too, a `map_store!` or `set_store!` in `rust_side`; and its
//! place in `workloads.rt` of `crates/tests`: in `MAPS` or `CHUNKED_MAPS`, or in the test of sets. The
//! number of a map comes before `SET`, so those of sets move up, in `rattle_side` too.
//!
//! To add a workload: a variant of `Workload` in `workloads.rt` of `crates/bench_workloads`, or of
//! `SetWorkload` in `workloads/sets.rt`, its function and its arm in `run` there; its export in
//! `exports.rt` of `crates/bench_map`; a field in `side`, which both sides fill; a `Workload` in
//! `workloads`; and a test with an answer worked out by hand.

// By name, since Cargo doesn't know of it: build.rs makes it.
extern crate rangemap;

mod agreement;
mod clock;
mod containers;
mod input;
mod measure;
mod picture;
mod rattle_side;
mod rust_side;
mod saved;
mod side;
mod table;
mod workloads;

use containers::Container;
use input::SIZES;
use std::fs;
use std::path::Path;
use table::{print_ratios, print_times, row};
use workloads::CHANGES;

/// Where changes at random places of one list begin to lose.
const CROSSING: [usize; 6] = [500, 1_000, 2_000, 3_000, 4_000, 6_000];

fn main() {
    let words: Vec<String> = std::env::args().skip(1).collect();
    let words: Vec<&str> = words.iter().map(String::as_str).collect();
    match words[..] {
        ["--compare", first, second] => {
            agreement::print_differences(&saved_tables(first), &saved_tables(second));
        }
        ["--draw", tables, folder] => {
            let tables = saved_tables(tables);
            write(folder, "speed.svg", picture::containers(&tables));
            write(folder, "choice.svg", picture::choice(&tables));
        }
        [] => {
            measure("", &SIZES);
            crossing();
        }
        [word] => measure(word, &SIZES),
        [word, size] => {
            let greatest: usize = size.parse().expect("the second word is a size");
            let sizes: Vec<usize> = SIZES.into_iter().filter(|size| *size <= greatest).collect();
            measure(word, &sizes);
        }
        _ => panic!("[WORD [SIZE]], --compare TABLES TABLES or --draw TABLES FOLDER"),
    }
}

fn saved_tables(path: &str) -> Vec<saved::Table> {
    let text = fs::read_to_string(path).unwrap_or_else(|error| panic!("{path}: {error}"));
    saved::tables(&text)
}

fn write(folder: &str, name: &str, picture: String) {
    let path = Path::new(folder).join(name);
    fs::write(&path, picture).unwrap_or_else(|error| panic!("{}: {error}", path.display()));
}

// The workloads whose names have the word, or whose containers' names do.
fn measure(word: &str, sizes: &[usize]) {
    let mut is_any = false;
    for map in [
        containers::HALF_OPEN,
        containers::CLOSED,
        containers::TREE,
        containers::TEXTS,
        containers::CHUNKED,
        containers::CLOSED_CHUNKED,
    ] {
        is_any |= print_tables(&map, word, sizes);
    }
    for set in [
        containers::SET,
        containers::CLOSED_SET,
        containers::CHUNKED_SET,
        containers::CLOSED_CHUNKED_SET,
    ] {
        is_any |= print_tables(&set, word, sizes);
    }
    assert!(is_any, "no workload and no container has the word {word}");
}

// Returns whether there is a table: whether the word is in the container's name or in a workload's.
fn print_tables<S>(container: &Container<S>, word: &str, sizes: &[usize]) -> bool {
    let is_named = container.name.contains(word);
    let rows: Vec<table::Row> = container
        .workloads
        .iter()
        .filter(|workload| is_named || workload.name.contains(word))
        .map(|workload| row(container, workload, sizes))
        .collect();
    if !rows.is_empty() {
        println!("\n### `{}`\n", container.name);
        print_ratios(sizes, &rows);
        println!();
        print_times(sizes, &rows);
    }
    !rows.is_empty()
}

fn crossing() {
    let mut rows = vec![];
    for workload in CHANGES {
        for container in [containers::HALF_OPEN, containers::TREE, containers::CHUNKED] {
            rows.push(row(&container, workload, &CROSSING).named_with(container.name));
        }
    }
    println!("\n### Where changes at random places cross\n");
    print_ratios(&CROSSING, &rows);
}
