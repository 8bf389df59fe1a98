//! Keys, steps and values that rows have beside those of std.

use crate::word::Word;
use rangemap::{StepFns, StepLite};
use std::cmp::Ordering;
use std::hash::{Hash, Hasher};

/// The steps of pairs of bytes in lexicographic order: behind `(1, 255)` comes `(2, 0)`.
#[derive(Clone, Debug, Hash, PartialEq, Eq, PartialOrd, Ord)]
pub struct PairSteps;

impl StepFns<(u8, u8)> for PairSteps {
    fn add_one(start: &(u8, u8)) -> (u8, u8) {
        match start.1.checked_add(1) {
            Some(second) => (start.0, second),
            None => (start.0 + 1, 0),
        }
    }

    fn sub_one(start: &(u8, u8)) -> (u8, u8) {
        match start.1.checked_sub(1) {
            Some(second) => (start.0, second),
            None => (start.0 - 1, 255),
        }
    }
}

/// The steps of signed bytes, which another type brings.
#[derive(Clone, Debug, Hash, PartialEq, Eq, PartialOrd, Ord)]
pub struct SignedSteps;

impl StepFns<i8> for SignedSteps {
    fn add_one(start: &i8) -> i8 {
        start + 1
    }

    fn sub_one(start: &i8) -> i8 {
        start - 1
    }
}

/// A byte, in the order in which the greater comes first.
#[derive(Clone, Debug, Hash, PartialEq, Eq)]
pub struct Down(u8);

impl PartialOrd for Down {
    fn partial_cmp(&self, other: &Self) -> Option<Ordering> {
        Some(self.cmp(other))
    }
}

impl Ord for Down {
    fn cmp(&self, other: &Self) -> Ordering {
        other.0.cmp(&self.0)
    }
}

impl StepLite for Down {
    fn add_one(&self) -> Self {
        Down(self.0 - 1)
    }

    fn sub_one(&self) -> Self {
        Down(self.0 + 1)
    }
}

impl Word for Down {
    fn parse(word: &str) -> Option<Self> {
        Some(Down(u8::parse(word)?))
    }

    fn word(&self) -> String {
        self.0.word()
    }
}

/// A value of which the number decides all comparisons, and the note none.
#[derive(Clone, Debug)]
pub struct Noted {
    number: u32,
    note: String,
}

impl PartialEq for Noted {
    fn eq(&self, other: &Self) -> bool {
        self.number == other.number
    }
}

impl Eq for Noted {}

impl PartialOrd for Noted {
    fn partial_cmp(&self, other: &Self) -> Option<Ordering> {
        Some(self.cmp(other))
    }
}

impl Ord for Noted {
    fn cmp(&self, other: &Self) -> Ordering {
        self.number.cmp(&other.number)
    }
}

impl Hash for Noted {
    fn hash<H: Hasher>(&self, state: &mut H) {
        self.number.hash(state);
    }
}

impl Word for Noted {
    fn parse(word: &str) -> Option<Self> {
        let (number, note) = Word::parse(word)?;
        Some(Noted { number, note })
    }

    fn word(&self) -> String {
        format!("{}/{}", self.number, self.note)
    }
}
