//! Rows of calls, questions and answers, beside the Rust crate: `rows FILE ..` answers those of files
//! by it, and `rows --random FOLDER SEED COUNT` writes files of random ones with its answers.
//!
//! To add a container: its line in `subjects`. To add a word: its arm in `calls` or `questions`, or its
//! place in the list of `answering` where the Rust crate has no such call.

// By name, since Cargo doesn't know of it: rows.sh makes it.
extern crate rangemap;

mod answering;
mod calls;
mod compared;
mod container;
mod departures;
mod fault;
mod file;
mod items;
mod keys;
mod maps;
mod pieces;
mod questions;
mod random;
mod ranges;
mod report;
mod sets;
mod subjects;
mod word;
mod writing;

use report::Report;
use std::path::Path;
use std::process::ExitCode;
use std::{env, fs, io, panic};

fn main() -> ExitCode {
    // Panics of the Rust crate are told as answers.
    panic::set_hook(Box::new(|_| ()));
    let words: Vec<String> = env::args().skip(1).collect();
    let words: Vec<&str> = words.iter().map(String::as_str).collect();
    match run(&words) {
        Ok(true) => ExitCode::SUCCESS,
        Ok(false) => ExitCode::FAILURE,
        Err(error) => {
            eprintln!("rows: {error}");
            ExitCode::from(2)
        }
    }
}

// Does what the arguments say, and returns whether no row differs.
fn run(words: &[&str]) -> io::Result<bool> {
    let &["--random", folder, seed, count] = words else {
        return answer(words);
    };
    let seed = seed.parse().map_err(io::Error::other)?;
    let count = count.parse().map_err(io::Error::other)?;
    writing::write_all(Path::new(folder), seed, count)?;
    Ok(true)
}

// Answers the rows of files, and returns whether none differs.
fn answer(files: &[&str]) -> io::Result<bool> {
    let mut report = Report::default();
    for file in files {
        report.add(file, &fs::read_to_string(file)?);
    }
    report.print();
    Ok(report.is_good())
}
