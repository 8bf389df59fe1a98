//! Keys and values, as words.

use crate::fault::Fault;
use std::fmt::Debug;
use std::hash::Hash;

/// A key or a value that a word names.
pub trait Word: Ord + Clone + Hash + Debug + 'static {
    /// What the word names, if it names one.
    fn parse(word: &str) -> Option<Self>;

    /// Its word.
    fn word(&self) -> String;

    /// What the word names.
    fn read(word: &str) -> Result<Self, Fault> {
        Self::parse(word).ok_or_else(|| Fault::Unread(word.to_owned()))
    }
}

macro_rules! plain_word {
    ($($number:ty)*) => ($(
        impl Word for $number {
            fn parse(word: &str) -> Option<Self> {
                word.parse().ok()
            }

            fn word(&self) -> String {
                self.to_string()
            }
        }
    )*)
}

plain_word!(u8 u16 u32 u64 u128 usize i8 i16 i32 i64 i128);

/// The text is the word.
impl Word for String {
    fn parse(word: &str) -> Option<Self> {
        Some(word.to_owned())
    }

    fn word(&self) -> String {
        self.clone()
    }
}

/// A character is its word, or `U+` and the digits of its number, as in `U+D7FF`.
impl Word for char {
    fn parse(word: &str) -> Option<Self> {
        match word.strip_prefix("U+") {
            Some(digits) => char::from_u32(u32::from_str_radix(digits, 16).ok()?),
            None => word.parse().ok(),
        }
    }

    fn word(&self) -> String {
        if self.is_ascii_alphanumeric() {
            self.to_string()
        } else {
            format!("U+{:04X}", u32::from(*self))
        }
    }
}

/// The value of a set's ranges has an empty word.
impl Word for () {
    fn parse(word: &str) -> Option<Self> {
        word.is_empty().then_some(())
    }

    fn word(&self) -> String {
        String::new()
    }
}

/// A pair has a slash between the words of its parts.
impl<A: Word, B: Word> Word for (A, B) {
    fn parse(word: &str) -> Option<Self> {
        let (first, second) = word.split_once('/')?;
        Some((A::parse(first)?, B::parse(second)?))
    }

    fn word(&self) -> String {
        format!("{}/{}", self.0.word(), self.1.word())
    }
}
