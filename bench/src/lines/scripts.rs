//! The lines that both sides read.

use crate::input::Random;
use std::fmt::Write;

/// Lines, and how often one sample runs over them.
pub struct Script {
    pub name: &'static str,
    pub times: usize,
    /// The lines, with values or without.
    pub lines: fn(bool) -> String,
}

pub const SCRIPTS: [Script; 4] = [
    Script {
        name: "a million at random",
        times: 1,
        lines: at_random,
    },
    Script {
        name: "a million in order",
        times: 1,
        lines: in_order,
    },
    Script {
        name: "a hundred thousand, half of them asked",
        times: 1,
        lines: asking,
    },
    Script {
        name: "twelve",
        times: 100,
        lines: few,
    },
];

const MILLION: u32 = 1_000_000;

const VALUES: [&str; 8] = ["ann", "bob", "cy", "dee", "eve", "fay", "gus", "hal"];

/// Inserts, and one removal in four lines, that leave some 193,000 ranges of a map.
fn at_random(has_value: bool) -> String {
    let mut random = Random::new(42);
    let mut lines = String::new();
    for _ in 0..MILLION {
        let name = if random.below(4) > 0 {
            "insert"
        } else {
            "remove"
        };
        let start = random.below(71_500_000) as u32;
        let end = start + 1 + random.below(1_000) as u32;
        push_change(&mut lines, name, start, end, &mut random, has_value);
    }
    lines + "len\n"
}

/// Inserts, each behind the one before.
fn in_order(has_value: bool) -> String {
    let mut random = Random::new(43);
    let mut lines = String::new();
    for at in 0..MILLION {
        let end = 10 * at + 1 + random.below(9) as u32;
        push_change(&mut lines, "insert", 10 * at, end, &mut random, has_value);
    }
    lines + "len\n"
}

/// Inserts at random places, and lookups between them.
fn asking(has_value: bool) -> String {
    let mut random = Random::new(44);
    let mut lines = String::new();
    for _ in 0..MILLION / 20 {
        let start = random.below(10_000_000) as u32;
        let end = start + 1 + random.below(1_000) as u32;
        push_change(&mut lines, "insert", start, end, &mut random, has_value);
        push_line(&mut lines, format_args!("get {}", random.below(10_000_000)));
    }
    lines + "len\n"
}

/// What a person may type.
fn few(has_value: bool) -> String {
    let mut random = Random::new(45);
    let mut lines = String::new();
    for at in 0..8 {
        push_change(
            &mut lines,
            "insert",
            3 * at,
            4 * at + 4,
            &mut random,
            has_value,
        );
    }
    lines + "get 5\nremove 3 6\nlen\niter\n"
}

/// Appends a line that changes a range, with a value where it is an insert that has one.
fn push_change(
    lines: &mut String,
    name: &str,
    start: u32,
    end: u32,
    random: &mut Random,
    has_value: bool,
) {
    let value = VALUES[random.below(VALUES.len() as u64) as usize];
    if has_value && name == "insert" {
        push_line(lines, format_args!("{name} {start} {end} {value}"));
    } else {
        push_line(lines, format_args!("{name} {start} {end}"));
    }
}

fn push_line(lines: &mut String, line: std::fmt::Arguments<'_>) {
    writeln!(lines, "{line}").expect("a text takes any line");
}
