//! Files of rows, read line by line.

use crate::ranges::first_word;

/// A row, in its parts.
#[derive(Clone, Copy)]
pub struct Row<'t> {
    /// Its line.
    pub line: usize,
    /// The containers that it is for: beginnings of their names, with commas between them.
    pub containers: &'t str,
    /// The calls that the rows above have in common with it.
    given: &'t str,
    calls: &'t str,
    /// What the container is asked.
    pub question: &'t str,
    /// What it answers.
    pub answer: &'t str,
}

impl<'t> Row<'t> {
    /// The calls that are made on an empty container, in order.
    pub fn all_calls(&self) -> Vec<&'t str> {
        let calls = self.given.split(", ").chain(self.calls.split(", "));
        calls.filter(|call| !call.is_empty()).collect()
    }

    /// The word of the question, and those of the calls.
    pub fn words(&self) -> impl Iterator<Item = &'t str> {
        let asked = first_word(self.question).0.trim_end_matches(';');
        let calls = self.all_calls().into_iter();
        std::iter::once(asked).chain(calls.map(|call| first_word(call).0))
    }
}

/// A line that is no row, no comment and no direction.
pub struct Misread<'t> {
    pub line: usize,
    pub text: &'t str,
}

/// The rows of a file's text, and the lines that could not be read.
pub fn rows(text: &str) -> (Vec<Row<'_>>, Vec<Misread<'_>>) {
    let (mut rows, mut misread) = (Vec::new(), Vec::new());
    let (mut containers, mut given) = ("", "");
    for (at, text) in text.lines().enumerate() {
        let line = at + 1;
        if text.is_empty() || text.starts_with('#') {
            continue;
        }
        if let Some(names) = text.strip_prefix("for ") {
            (containers, given) = (names, "");
        } else if let Some(calls) = text.strip_prefix("given") {
            given = calls.trim();
        } else if let (Some([calls, question, answer]), false) =
            (parts(text), containers.is_empty())
        {
            rows.push(Row {
                line,
                containers,
                given,
                calls,
                question,
                answer,
            });
        } else {
            misread.push(Misread { line, text });
        }
    }
    (rows, misread)
}

// The three parts of a row, which have two bars between them.
fn parts(text: &str) -> Option<[&str; 3]> {
    let parts: Vec<&str> = text.split('|').map(str::trim).collect();
    parts.try_into().ok()
}
