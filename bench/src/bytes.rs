//! Prints how many bytes each container of numbers holds for a stored range, beside the Rust
//! crate's.
//!
//! What both sides ask of the C library goes through this program, which adds up what they hold: the
//! usable size of each block. The number is taken when a side asks for a block of `MARK` bytes, while
//! its container stands.

// By name, since Cargo doesn't know of it: build.rs makes it.
extern crate rangemap;

mod held;
#[allow(dead_code)]
mod input;
#[allow(dead_code)]
mod rattle_side;
#[allow(dead_code, unused_imports)]
mod rust_side;
#[allow(dead_code)]
mod side;

use input::{in_order, shuffled, Entry, SIZES};
use side::{MapSide, Run, SetSide};

/// A container, and how either side makes one that stands.
struct Standing {
    name: &'static str,
    rust: Run,
    rattle: Run,
    /// The greatest size at which ranges come at random places.
    most_shuffled: usize,
}

const CONTAINERS: [Standing; 9] = [
    in_a_vector(of_maps(
        "RangeMap",
        rust_side::HALF_OPEN,
        rattle_side::HALF_OPEN,
    )),
    in_a_vector(of_maps(
        "RangeInclusiveMap",
        rust_side::CLOSED,
        rattle_side::CLOSED,
    )),
    in_a_vector(of_sets("RangeSet", rust_side::SET, rattle_side::SET)),
    in_a_vector(of_sets(
        "RangeInclusiveSet",
        rust_side::CLOSED_SET,
        rattle_side::CLOSED_SET,
    )),
    of_maps(
        "tree_map::RangeMap",
        rust_side::HALF_OPEN,
        rattle_side::TREE,
    ),
    of_maps(
        "chunked::RangeMap",
        rust_side::HALF_OPEN,
        rattle_side::CHUNKED,
    ),
    of_maps(
        "chunked::RangeInclusiveMap",
        rust_side::CLOSED,
        rattle_side::CLOSED_CHUNKED,
    ),
    of_sets(
        "chunked::RangeSet",
        rust_side::SET,
        rattle_side::CHUNKED_SET,
    ),
    of_sets(
        "chunked::RangeInclusiveSet",
        rust_side::CLOSED_SET,
        rattle_side::CLOSED_CHUNKED_SET,
    ),
];

const fn of_maps(name: &'static str, rust: MapSide, rattle: MapSide) -> Standing {
    standing(name, rust.standing, rattle.standing)
}

const fn of_sets(name: &'static str, rust: SetSide, rattle: SetSide) -> Standing {
    standing(name, rust.standing, rattle.standing)
}

const fn standing(name: &'static str, rust: Run, rattle: Run) -> Standing {
    Standing {
        name,
        rust,
        rattle,
        most_shuffled: usize::MAX,
    }
}

// One whose ranges are in a vector, which takes long to be made of many at random places.
const fn in_a_vector(container: Standing) -> Standing {
    Standing {
        most_shuffled: 100_000,
        ..container
    }
}

fn main() {
    println!("### Bytes held for a range: Rust crate / this library\n");
    let heads: Vec<String> = SIZES.iter().map(ToString::to_string).collect();
    println!("| Container | {} |", heads.join(" | "));
    println!("|---|{}", "---|".repeat(SIZES.len()));
    for container in CONTAINERS {
        let in_order = cells(&container, usize::MAX, in_order);
        println!("| `{}`, in order | {in_order} |", container.name);
        let shuffled = |size| shuffled(size, 1);
        let at_random = cells(&container, container.most_shuffled, shuffled);
        println!("| `{}`, at random places | {at_random} |", container.name);
    }
}

// A container's cells, where it is made of ranges that come in an order. Sizes above `most` are left
// out.
fn cells(container: &Standing, most: usize, entries: impl Fn(usize) -> Vec<Entry>) -> String {
    let cell = |size: usize| {
        if size > most {
            return String::from("-");
        }
        let entries = entries(size);
        let [rust, rattle] = [container.rust, container.rattle].map(|run| bytes(run, &entries));
        format!("{rust:.1} / {rattle:.1}")
    };
    SIZES.map(cell).join(" | ")
}

// For each of the ranges of a container that stands.
fn bytes(run: Run, entries: &[Entry]) -> f64 {
    held::while_standing(|| run(entries, &[], 1)) as f64 / entries.len() as f64
}
