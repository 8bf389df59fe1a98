//! A row, answered by the Rust crate.

use crate::departures::{Departure, Found, DEPARTURES};
use crate::fault::Fault;
use crate::file::Row;
use crate::subjects::{Answer, Subject, SUBJECTS, WITHOUT_STEPS};
use std::any::Any;
use std::panic::catch_unwind;

/// Words of calls and questions that the Rust crate has not.
const OWN_WORDS: &[&str] = &[
    "insert_pairs",
    "update",
    "append_all",
    "append_gaps",
    "append_overlapping",
    "blocks",
    "collect_gaps",
    "from_value",
    "law",
    "operators",
    "refuse",
    "replay",
    "round_trips",
    "run",
    "segments",
    "to_value",
];

/// What came of a row.
pub enum Outcome {
    /// It is answered as it says, by each of its containers.
    Answered,
    /// It says otherwise on purpose.
    Departs(&'static Departure),
    /// It has a word, or is for a container, that the Rust crate has not.
    Skipped(String),
    /// One of its containers answers otherwise.
    Differs {
        container: &'static str,
        found: String,
    },
    /// Nothing is known of a container that it is for.
    NoContainer(String),
}

/// What a container answers: words, or what kept it from that.
pub enum Answered {
    Words(String),
    Fault(Fault),
    Panic(String),
}

/// Answers a row by each of its containers.
pub fn outcome(row: &Row) -> Outcome {
    let mut words = row.words();
    if let Some(word) = words.find(|word| OWN_WORDS.contains(word)) {
        return Outcome::Skipped(word.to_owned());
    }
    let mut subjects = Vec::new();
    for name in row.containers.split(", ") {
        let name = without_store(name);
        let named = SUBJECTS.iter().filter(|subject| begins(subject.name, name));
        let before = subjects.len();
        subjects.extend(named);
        if subjects.len() == before {
            return if WITHOUT_STEPS.iter().any(|known| begins(known, name)) {
                Outcome::Skipped(name.to_owned())
            } else {
                Outcome::NoContainer(name.to_owned())
            };
        }
    }
    let outcomes = subjects.into_iter().map(|subject| run(row, subject));
    let mut worst = Outcome::Answered;
    for outcome in outcomes {
        match outcome {
            Outcome::Answered => (),
            Outcome::Differs { .. } => return outcome,
            _ => worst = outcome,
        }
    }
    worst
}

/// Makes calls on an empty container, and asks it. A panic of the Rust crate is an answer too.
pub fn answered(answer: Answer, calls: &[&str], question: &str) -> Answered {
    match catch_unwind(|| answer(calls, question)) {
        Ok(Ok(words)) => Answered::Words(words),
        Ok(Err(fault)) => Answered::Fault(fault),
        Err(payload) => Answered::Panic(message(payload.as_ref())),
    }
}

// Runs a row on one container.
fn run(row: &Row, subject: &'static Subject) -> Outcome {
    let answered = answered(subject.answer, &row.all_calls(), row.question);
    let (found, panic) = match answered {
        Answered::Words(words) if words == row.answer => return Outcome::Answered,
        Answered::Words(words) => (words, None),
        Answered::Fault(fault) => (fault.to_string(), None),
        Answered::Panic(message) => (format!("a panic: {message}"), Some(message)),
    };
    let shown = Found {
        panic: panic.as_deref(),
    };
    match DEPARTURES
        .iter()
        .find(|departure| (departure.shows)(&shown))
    {
        Some(departure) => Outcome::Departs(departure),
        None => Outcome::Differs {
            container: subject.name,
            found,
        },
    }
}

// What a panic says.
fn message(payload: &(dyn Any + Send)) -> String {
    let text = payload.downcast_ref::<&str>().copied();
    let text = text.or_else(|| payload.downcast_ref::<String>().map(String::as_str));
    text.unwrap_or("no message").to_owned()
}

// The name of a container without that of its store, of which the Rust crate has one alone.
fn without_store(name: &str) -> &str {
    name.split_once(" in ").map_or(name, |(name, _)| name)
}

// Whether a name begins with these words.
fn begins(name: &str, words: &str) -> bool {
    let rest = name.strip_prefix(words);
    rest.is_some_and(|rest| rest.is_empty() || rest.starts_with(' '))
}
