//! What keeps a row from being answered.

use std::fmt;

/// What keeps a row from being answered.
#[derive(Clone, Debug, PartialEq, Eq)]
pub enum Fault {
    /// No such call or question is known of this container.
    Unknown(String),
    /// A text that names no key, value, range or script.
    Unread(String),
    /// Two calls of the Rust crate that ought to say the same do not.
    Differs(&'static str),
}

impl fmt::Display for Fault {
    fn fmt(&self, out: &mut fmt::Formatter<'_>) -> fmt::Result {
        match self {
            Fault::Unknown(word) => write!(out, "`{word}` is no word of this container"),
            Fault::Unread(text) => write!(out, "`{text}` could not be read"),
            Fault::Differs(calls) => write!(out, "{calls} do not say the same"),
        }
    }
}

/// Refuses two answers that ought to be the same and are not.
pub fn same<T: PartialEq>(one: T, other: T, calls: &'static str) -> Result<(), Fault> {
    if one == other {
        Ok(())
    } else {
        Err(Fault::Differs(calls))
    }
}
