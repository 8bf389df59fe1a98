//! The containers that rows are for, by name.

use crate::calls::{make, make_by_own_steps, make_on_set};
use crate::container::{Container, Operators, OwnSteps, Set};
use crate::fault::Fault;
use crate::keys::{Down, Noted, PairSteps, SignedSteps};
use crate::questions::{ask, ask_by_own_steps, ask_set, ask_set_by_own_steps, Question};
use rangemap::{RangeInclusiveMap, RangeInclusiveSet, RangeMap, RangeSet};

/// Makes calls on an empty container, and asks it.
pub type Answer = fn(calls: &[&str], question: &str) -> Result<String, Fault>;

/// A container that rows are for.
pub struct Subject {
    /// Its kind, and the types of its keys and values.
    pub name: &'static str,
    /// What it answers.
    pub answer: Answer,
}

const fn subject(name: &'static str, answer: Answer) -> Subject {
    Subject { name, answer }
}

/// All of them. Costly keys and values are bytes here, whose clones take nothing.
pub const SUBJECTS: &[Subject] = &[
    subject("map u32 char", own_steps::<RangeMap<u32, char>>),
    subject("map u32 text", own_steps::<RangeMap<u32, String>>),
    subject("map u32 u32", own_steps::<RangeMap<u32, u32>>),
    subject("map u32 noted", own_steps::<RangeMap<u32, Noted>>),
    subject("map i8 text", own_steps::<RangeMap<i8, String>>),
    subject("map char text", own_steps::<RangeMap<char, String>>),
    subject("map u64 char", own_steps::<RangeMap<u64, char>>),
    subject("map i64 char", own_steps::<RangeMap<i64, char>>),
    subject("map text char", own_steps::<RangeMap<String, char>>),
    subject(
        "map text/u32 char",
        own_steps::<RangeMap<(String, u32), char>>,
    ),
    subject("map costly char", own_steps::<RangeMap<u8, char>>),
    subject("map costly costly", own_steps::<RangeMap<u8, u8>>),
    subject("imap u32 char", own_steps::<RangeInclusiveMap<u32, char>>),
    subject("imap u32 text", own_steps::<RangeInclusiveMap<u32, String>>),
    subject("imap u32 u32", own_steps::<RangeInclusiveMap<u32, u32>>),
    subject("imap u32 noted", own_steps::<RangeInclusiveMap<u32, Noted>>),
    subject("imap u64 char", own_steps::<RangeInclusiveMap<u64, char>>),
    subject("imap i64 char", own_steps::<RangeInclusiveMap<i64, char>>),
    subject("imap u8 text", own_steps::<RangeInclusiveMap<u8, String>>),
    subject("imap i8 text", own_steps::<RangeInclusiveMap<i8, String>>),
    subject("imap costly char", own_steps::<RangeInclusiveMap<u8, char>>),
    subject("imap costly costly", own_steps::<RangeInclusiveMap<u8, u8>>),
    subject("imap down char", own_steps::<RangeInclusiveMap<Down, char>>),
    subject(
        "imap pair char",
        any_steps::<RangeInclusiveMap<(u8, u8), char, PairSteps>>,
    ),
    subject(
        "imap stepped text",
        any_steps::<RangeInclusiveMap<i8, String, SignedSteps>>,
    ),
    subject("set u32", set_of_own_steps::<RangeSet<u32>>),
    subject("set costly", set_of_own_steps::<RangeSet<u8>>),
    subject("set text", set_of_own_steps::<RangeSet<String>>),
    subject("set u64", set_of_own_steps::<RangeSet<u64>>),
    subject("set i64", set_of_own_steps::<RangeSet<i64>>),
    subject("set char", set_of_own_steps::<RangeSet<char>>),
    subject("iset u8", set_of_own_steps::<RangeInclusiveSet<u8>>),
    subject("iset u16", set_of_own_steps::<RangeInclusiveSet<u16>>),
    subject("iset u32", set_of_own_steps::<RangeInclusiveSet<u32>>),
    subject("iset u64", set_of_own_steps::<RangeInclusiveSet<u64>>),
    subject("iset u128", set_of_own_steps::<RangeInclusiveSet<u128>>),
    subject("iset usize", set_of_own_steps::<RangeInclusiveSet<usize>>),
    subject("iset i8", set_of_own_steps::<RangeInclusiveSet<i8>>),
    subject("iset i16", set_of_own_steps::<RangeInclusiveSet<i16>>),
    subject("iset i32", set_of_own_steps::<RangeInclusiveSet<i32>>),
    subject("iset i64", set_of_own_steps::<RangeInclusiveSet<i64>>),
    subject("iset i128", set_of_own_steps::<RangeInclusiveSet<i128>>),
    subject("iset costly", set_of_own_steps::<RangeInclusiveSet<u8>>),
    subject("iset down", set_of_own_steps::<RangeInclusiveSet<Down>>),
    subject(
        "iset pair",
        set_of_any_steps::<RangeInclusiveSet<(u8, u8), PairSteps>>,
    ),
    subject(
        "iset stepped",
        set_of_any_steps::<RangeInclusiveSet<i8, SignedSteps>>,
    ),
];

/// Containers of the rows for whose keys the Rust crate has no steps.
pub const WITHOUT_STEPS: &[&str] = &["imap char char", "iset char", "iset isize"];

/// The subject of a name, of which there is one.
pub fn named(name: &str) -> Option<&'static Subject> {
    SUBJECTS.iter().find(|subject| subject.name == name)
}

fn own_steps<C: OwnSteps>(calls: &[&str], question: &str) -> Result<String, Fault> {
    let made = made_by::<C>(calls, make_by_own_steps)?;
    ask_by_own_steps(&made, &Question::of(question))
}

fn any_steps<C: Container>(calls: &[&str], question: &str) -> Result<String, Fault> {
    ask(&made_by::<C>(calls, make)?, &Question::of(question))
}

fn set_of_own_steps<C: OwnSteps + Operators>(
    calls: &[&str],
    question: &str,
) -> Result<String, Fault> {
    let made = made_by::<C>(calls, make_on_set)?;
    ask_set_by_own_steps(&made, &Question::of(question))
}

fn set_of_any_steps<C: Set>(calls: &[&str], question: &str) -> Result<String, Fault> {
    ask_set(&made_by::<C>(calls, make)?, &Question::of(question))
}

// An empty container on which calls were made.
fn made_by<C: Container>(
    calls: &[&str],
    make: fn(&mut C, &str) -> Result<(), Fault>,
) -> Result<C, Fault> {
    let mut container = C::empty();
    for call in calls {
        make(&mut container, call)?;
    }
    Ok(container)
}
