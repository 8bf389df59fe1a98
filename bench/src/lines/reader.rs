//! The reader over the Rust crate: the commands that the inputs have, as `rangerun` carries them
//! out.

use rangemap::{RangeInclusiveMap, RangeInclusiveSet, RangeMap, RangeSet};
use std::error::Error;
use std::fmt::Debug;
use std::io::{self, BufRead, Write};

/// A container of the Rust crate, as lines ask for it.
trait Container: Default + Debug {
    fn insert(&mut self, start: u32, end: u32, value: &str);
    fn remove(&mut self, start: u32, end: u32);
    /// The item that has a key, as it is printed.
    fn item(&self, key: u32) -> Option<String>;
    fn len(&self) -> usize;
}

macro_rules! map {
    ($container:ty, $start:ident, $end:ident, $range:expr) => {
        impl Container for $container {
            fn insert(&mut self, $start: u32, $end: u32, value: &str) {
                self.insert($range, value.to_string());
            }
            fn remove(&mut self, $start: u32, $end: u32) {
                self.remove($range);
            }
            fn item(&self, key: u32) -> Option<String> {
                let (range, value) = self.get_key_value(&key)?;
                Some(format!("{range:?}: {value:?}"))
            }
            fn len(&self) -> usize {
                self.len()
            }
        }
    };
}

macro_rules! set {
    ($container:ty, $start:ident, $end:ident, $range:expr) => {
        impl Container for $container {
            fn insert(&mut self, $start: u32, $end: u32, _value: &str) {
                self.insert($range);
            }
            fn remove(&mut self, $start: u32, $end: u32) {
                self.remove($range);
            }
            fn item(&self, key: u32) -> Option<String> {
                Some(format!("{:?}", self.get(&key)?))
            }
            fn len(&self) -> usize {
                self.len()
            }
        }
    };
}

map!(RangeMap<u32, String>, start, end, start..end);
map!(RangeInclusiveMap<u32, String>, start, end, start..=end);
set!(RangeSet<u32>, start, end, start..end);
set!(RangeInclusiveSet<u32>, start, end, start..=end);

/// Carries out the lines of standard input over a container of a kind.
///
/// # Errors
///
/// The kind or a line is none, or a stream failed.
pub fn read(kind: &str) -> Result<(), Box<dyn Error>> {
    match kind {
        "map" => read_into(RangeMap::<u32, String>::new()),
        "imap" => read_into(RangeInclusiveMap::<u32, String>::new()),
        "set" => read_into(RangeSet::<u32>::new()),
        "iset" => read_into(RangeInclusiveSet::<u32>::new()),
        _ => Err("no such kind".into()),
    }
}

// As `rangerun` does, it writes each answer before it reads the next line.
fn read_into<C: Container>(mut container: C) -> Result<(), Box<dyn Error>> {
    let mut input = io::stdin().lock();
    let mut output = io::stdout().lock();
    let mut line = String::new();
    while input.read_line(&mut line)? > 0 {
        let mut words = line.trim_end_matches('\n').split(' ');
        let mut next = || words.next().ok_or("too few words");
        match next()? {
            "insert" => container.insert(
                next()?.parse()?,
                next()?.parse()?,
                next().unwrap_or_default(),
            ),
            "remove" => container.remove(next()?.parse()?, next()?.parse()?),
            "get" => match container.item(next()?.parse()?) {
                Some(item) => writeln!(output, "{item}")?,
                None => writeln!(output, "none")?,
            },
            "len" => writeln!(output, "{}", container.len())?,
            "iter" => writeln!(output, "{container:?}")?,
            _ => return Err("no such command".into()),
        }
        output.flush()?;
        line.clear();
    }
    Ok(())
}
