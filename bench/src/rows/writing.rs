//! Files of random rows, with the answers of the Rust crate.

use crate::answering::{answered, Answered};
use crate::random::{both_ends, one_end, Kind, Random, KINDS};
use crate::subjects::{named, Answer};
use std::fs::File;
use std::io::{self, BufWriter, Error, Write};
use std::path::Path;

/// The words of questions, which are asked in turn.
const QUESTIONS: [&str; 14] = [
    "holds",
    "at",
    "overlapping",
    "overlaps",
    "covers",
    "gaps",
    "iter",
    "into_iter",
    "equals",
    "debug",
    "lines",
    "len",
    "ends",
    "ascending",
];

/// Those of sets alone.
const QUESTIONS_OF_SETS: [&str; 7] = [
    "union",
    "intersection",
    "difference",
    "symmetric_difference",
    "subset",
    "superset",
    "disjoint",
];

/// Questions that the Rattle program asks containers over any steps, which it does not extend.
const WITHOUT_EXTEND: [&str; 7] = [
    "overlapping",
    "gaps",
    "ascending",
    "union",
    "intersection",
    "difference",
    "symmetric_difference",
];

/// A row that the Rust crate has answered, or its calls and question with what it panicked with.
enum Made {
    Row(String),
    Panic(String),
}

/// Writes a file of so many random rows for each kind of container, and prints what was written, and
/// what the Rust crate panicked on, which stands in no file.
pub fn write_all(folder: &Path, seed: u64, count: usize) -> io::Result<()> {
    for kind in KINDS {
        let file = folder.join(format!("random_{}.rows", kind.name));
        let mut out = BufWriter::new(File::create(&file)?);
        let panics = write(&mut out, kind, seed, count)?;
        out.flush()?;
        let shown = file.display();
        println!(
            "{shown}: {count} rows; the Rust crate panicked on {} others",
            panics.len()
        );
        for panic in panics.iter().take(3) {
            println!("{shown}: left out: {panic}");
        }
    }
    Ok(())
}

// Writes the rows of one kind, and returns what the Rust crate panicked on.
fn write(out: &mut impl Write, kind: Kind, seed: u64, count: usize) -> io::Result<Vec<String>> {
    let subject = named(kind.containers).expect("a container of this name is known");
    writeln!(
        out,
        "# Random rows of seed {seed}, with the answers of the Rust crate.\n"
    )?;
    writeln!(out, "for {}\n", kind.containers)?;
    let questions = QUESTIONS.iter().chain(&QUESTIONS_OF_SETS);
    let asked = QUESTIONS.len()
        + if kind.is_map {
            0
        } else {
            QUESTIONS_OF_SETS.len()
        };
    let mut words = questions.take(asked).cycle();
    let mut random = Random::new(seed);
    let (mut written, mut panics) = (0, Vec::new());
    while written < count {
        let word = words.next().expect("a cycle has no end");
        match row(kind, subject.answer, &mut random, word)? {
            Made::Row(row) => {
                writeln!(out, "{row}")?;
                written += 1;
            }
            Made::Panic(panic) => panics.push(panic),
        }
    }
    Ok(panics)
}

// Makes a row with this question.
fn row(kind: Kind, answer: Answer, random: &mut Random, word: &str) -> io::Result<Made> {
    let may_extend = !WITHOUT_EXTEND.contains(&word);
    let count = random.below(16);
    let calls: Vec<String> = (0..count).map(|_| kind.call(random, may_extend)).collect();
    let calls: Vec<&str> = calls.iter().map(String::as_str).collect();
    let held = match answered(answer, &calls, "holds") {
        Answered::Words(held) => held,
        Answered::Panic(panic) => return Ok(Made::Panic(format!("{}: {panic}", calls.join(", ")))),
        Answered::Fault(fault) => return Err(Error::other(fault.to_string())),
    };
    let question = question(kind, random, word, &held);
    let row = format!("{} | {question} |", calls.join(", "));
    match answered(answer, &calls, &question) {
        Answered::Words(words) => Ok(Made::Row(format!("{row} {words}").trim().to_owned())),
        Answered::Panic(panic) => Ok(Made::Panic(format!("{row} {panic}"))),
        Answered::Fault(fault) => Err(Error::other(format!("{row} {fault}"))),
    }
}

// A question of this word to a container that holds the pairs of a list.
fn question(kind: Kind, random: &mut Random, word: &str, held: &str) -> String {
    let operand = match word {
        "at" => kind.key(random).to_string(),
        "overlaps" | "covers" => kind.query(random),
        "overlapping" => scripted(kind.query(random), both_ends(random)),
        "gaps" => scripted(kind.query(random), one_end(random)),
        "union" if held.contains(',') => scripted(kind.list(random, ", "), of_rest(random)),
        "union" | "intersection" | "difference" | "symmetric_difference" => {
            scripted(kind.list(random, ", "), one_end(random))
        }
        "iter" | "into_iter" => both_ends(random),
        "equals" | "subset" | "superset" => nearly(kind, random, held),
        "disjoint" => kind.list(random, ", "),
        "ascending" => ascending(kind, random, held),
        _ => String::new(),
    };
    format!("{word} {operand}").trim().to_owned()
}

// The list of what is held and another, in either order. The last is not empty, since a row has no
// blank at its end.
fn ascending(kind: Kind, random: &mut Random, held: &str) -> String {
    let other = nearly(kind, random, held);
    let (first, last) = if random.one_in(2) {
        (held, other.as_str())
    } else {
        (other.as_str(), held)
    };
    if last.is_empty() {
        format!("{last}; {}", kind.pair(random))
    } else {
        format!("{first}; {last}")
    }
}

// An operand and, behind a semicolon, a script, unless that is empty.
fn scripted(operand: String, script: String) -> String {
    if script.is_empty() {
        operand
    } else {
        format!("{operand}; {script}")
    }
}

// What is taken of a union whose left set has two ranges or more, now and then behind one of them.
fn of_rest(random: &mut Random) -> String {
    match random.below(8) {
        0 => "fN".to_owned(),
        1 => "bN".to_owned(),
        _ => one_end(random),
    }
}

// The list of what is held, one with another pair behind it, or any other.
fn nearly(kind: Kind, random: &mut Random, held: &str) -> String {
    let other = kind.list(random, ", ");
    match random.below(3) {
        0 => held.to_owned(),
        1 if !held.is_empty() && !other.is_empty() => format!("{held}, {other}"),
        _ => other,
    }
}
