//! What was found of the rows of all files.

use crate::answering::{outcome, Outcome};
use crate::departures::DEPARTURES;
use crate::file::{rows, Row};
use std::collections::BTreeMap;

/// How many rows there were of each kind.
#[derive(Default)]
pub struct Report {
    answered: usize,
    differ: usize,
    skipped: BTreeMap<String, usize>,
    departed: BTreeMap<&'static str, usize>,
}

impl Report {
    /// Answers the rows of a file's text, and prints those that differ, and how many there were.
    pub fn add(&mut self, file: &str, text: &str) {
        let mut found = Report::default();
        let (rows, misread) = rows(text);
        for line in misread {
            found.differ += 1;
            println!("{file}:{}: no row: {}", line.line, line.text);
        }
        for row in &rows {
            found.count(file, row);
        }
        println!("{file}: {}", found.counts());
        self.answered += found.answered;
        self.differ += found.differ;
        add_counts(&mut self.skipped, found.skipped);
        add_counts(&mut self.departed, found.departed);
    }

    /// Whether no row differs, and some were answered.
    pub fn is_good(&self) -> bool {
        self.differ == 0 && self.answered > 0
    }

    /// Prints what came of all files.
    pub fn print(&self) {
        for (word, count) in &self.skipped {
            println!("skipped for `{word}`, which the Rust crate has not: {count}");
        }
        for departure in DEPARTURES {
            let count = self.departed.get(departure.name).unwrap_or(&0);
            println!(
                "departed, {} ({}): {count}",
                departure.name, departure.reason
            );
        }
        println!("{}", self.counts());
    }

    fn count(&mut self, file: &str, row: &Row) {
        match outcome(row) {
            Outcome::Answered => self.answered += 1,
            Outcome::Skipped(word) => *self.skipped.entry(word).or_default() += 1,
            Outcome::Departs(departure) => {
                *self.departed.entry(departure.name).or_default() += 1;
                println!("{file}:{}: departs: {}", row.line, departure.name);
            }
            Outcome::Differs { container, found } => {
                self.differ += 1;
                let (line, wanted) = (row.line, row.answer);
                println!("{file}:{line}: {container}: found {found}");
                println!("{file}:{line}: {container}: wanted {wanted}");
            }
            Outcome::NoContainer(name) => {
                self.differ += 1;
                println!("{file}:{}: no container: {name}", row.line);
            }
        }
    }

    fn counts(&self) -> String {
        let skipped: usize = self.skipped.values().sum();
        let departed: usize = self.departed.values().sum();
        let answered = self.answered;
        let differ = self.differ;
        format!("{answered} rows answered, {skipped} skipped, {departed} depart, {differ} differ")
    }
}

fn add_counts<K: Ord>(counts: &mut BTreeMap<K, usize>, others: BTreeMap<K, usize>) {
    for (key, count) in others {
        *counts.entry(key).or_default() += count;
    }
}
