//! Where the Rattle library departs from the Rust crate on purpose, so that a row says otherwise.

/// A departure.
pub struct Departure {
    pub name: &'static str,
    pub reason: &'static str,
    /// Whether what was found is of this departure.
    pub shows: fn(found: &Found) -> bool,
}

/// What was found of a row that is answered otherwise.
pub struct Found<'t> {
    /// What the Rust crate panicked with, where it did.
    pub panic: Option<&'t str>,
}

/// All departures that rows show.
pub const DEPARTURES: &[Departure] = &[Departure {
    name: "steps at the ends",
    reason: "the Rust crate steps past the last key or the first, which panics where overflow is checked",
    shows: |found| found.panic.is_some_and(|message| message.contains("overflow")),
}];
