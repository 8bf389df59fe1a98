//! Ranges and pairs, as words: a range has two words with dots between them, and a pair a space and
//! its value behind that.

use crate::fault::Fault;
use crate::word::Word;
use rangemap::StepFns;
use std::collections::BTreeSet;
use std::ops::{Range, RangeInclusive};

/// A range with a start and an end.
pub trait KeyRange: Clone + PartialEq {
    /// What it is a range of.
    type Key: Word;

    /// What stands between the words of its ends.
    const DOTS: &'static str;

    /// The range from a start to an end.
    fn between(start: Self::Key, end: Self::Key) -> Self;

    /// Its start and its end.
    fn ends(&self) -> (&Self::Key, &Self::Key);

    /// Whether a key lies in it.
    fn holds_key(&self) -> bool;

    /// Whether this key lies in it.
    fn has(&self, key: &Self::Key) -> bool;
}

impl<K: Word> KeyRange for Range<K> {
    type Key = K;

    const DOTS: &'static str = "..";

    fn between(start: K, end: K) -> Self {
        start..end
    }

    fn ends(&self) -> (&K, &K) {
        (&self.start, &self.end)
    }

    fn holds_key(&self) -> bool {
        !self.is_empty()
    }

    fn has(&self, key: &K) -> bool {
        self.contains(key)
    }
}

impl<K: Word> KeyRange for RangeInclusive<K> {
    type Key = K;

    const DOTS: &'static str = "..=";

    fn between(start: K, end: K) -> Self {
        start..=end
    }

    fn ends(&self) -> (&K, &K) {
        (self.start(), self.end())
    }

    fn holds_key(&self) -> bool {
        !self.is_empty()
    }

    fn has(&self, key: &K) -> bool {
        self.contains(key)
    }
}

/// The pieces into which the ends of half-open ranges divide the keys: each goes to the next end.
pub fn half_open_pieces<K: Word>(ranges: &[Range<K>]) -> Vec<Range<K>> {
    let ends = ranges.iter().flat_map(|range| [&range.start, &range.end]);
    let ends: BTreeSet<&K> = ends.collect();
    let behind = ends.iter().skip(1);
    let pairs = ends.iter().zip(behind);
    pairs
        .map(|(&start, &end)| start.clone()..end.clone())
        .collect()
}

/// The pieces into which the ends of closed ranges divide the keys: one starts where a range does, and
/// one a step behind its end, but for the last of all, behind which there may be no key.
pub fn closed_pieces<K: Word, S: StepFns<K>>(
    ranges: &[RangeInclusive<K>],
) -> Vec<RangeInclusive<K>> {
    let Some(last) = ranges.iter().map(RangeInclusive::end).max() else {
        return Vec::new();
    };
    let ends = ranges.iter().map(RangeInclusive::end);
    let behind = ends.filter(|&end| end < last).map(S::add_one);
    let starts = ranges.iter().map(|range| range.start().clone());
    let starts: BTreeSet<K> = starts.chain(behind).collect();
    let ends = starts.iter().skip(1).map(S::sub_one);
    let ends: Vec<K> = ends.chain([last.clone()]).collect();
    let pairs = starts.iter().zip(ends);
    pairs.map(|(start, end)| start.clone()..=end).collect()
}

/// The range that a query names, which may be empty or reversed.
pub fn query<R: KeyRange>(text: &str) -> Result<R, Fault> {
    match text.split_once(R::DOTS) {
        Some((start, end)) if !end.starts_with('=') => {
            Ok(R::between(Word::read(start)?, Word::read(end)?))
        }
        _ => Err(Fault::Unread(text.to_owned())),
    }
}

/// The range that a text names, which has to hold a key.
pub fn range<R: KeyRange>(text: &str) -> Result<R, Fault> {
    let range: R = query(text)?;
    if range.holds_key() {
        Ok(range)
    } else {
        Err(Fault::Unread(text.to_owned()))
    }
}

/// The range and the value of a pair.
pub fn pair<R: KeyRange, V: Word>(text: &str) -> Result<(R, V), Fault> {
    let (name, value) = first_word(text);
    Ok((range(name)?, V::read(value)?))
}

/// The pairs of a list, in which a separator stands between two.
pub fn pairs<R: KeyRange, V: Word>(list: &str, separator: &str) -> Result<Vec<(R, V)>, Fault> {
    let items = list.split(separator).filter(|item| !item.is_empty());
    items.map(pair).collect()
}

/// The words of a pair, which are those of its range where the value has an empty one.
pub fn pair_words<R: KeyRange, V: Word>(range: &R, value: &V) -> String {
    let value = value.word();
    if value.is_empty() {
        range_words(range)
    } else {
        format!("{} {value}", range_words(range))
    }
}

/// The words of a range.
pub fn range_words<R: KeyRange>(range: &R) -> String {
    let (start, end) = range.ends();
    format!("{}{}{}", start.word(), R::DOTS, end.word())
}

/// The first word of a text, and the others.
pub fn first_word(text: &str) -> (&str, &str) {
    text.split_once(' ').unwrap_or((text, ""))
}
