//! The values of the maps: a number, or a text.

/// A value that the workloads store.
pub trait Stored: Eq + Clone {
    /// Makes the value of an entry, of the entry's number.
    fn made_of(number: u32) -> Self;

    /// Returns a number that tells the value from others.
    fn number(&self) -> u64;
}

impl Stored for u32 {
    fn made_of(number: u32) -> u32 {
        number
    }

    fn number(&self) -> u64 {
        u64::from(*self)
    }
}

/// The texts that are stored, each of another length.
const TEXTS: [&str; 8] = [
    "free",
    "taken",
    "booked",
    "waiting",
    "reserved",
    "cancelled",
    "out of use",
    "not known yet",
];

impl Stored for String {
    fn made_of(number: u32) -> String {
        String::from(TEXTS[(number % 8) as usize])
    }

    fn number(&self) -> u64 {
        self.len() as u64
    }
}
