//! What the rows ask of the four containers of the Rust crate.

use crate::fault::{same, Fault};
use crate::ranges::KeyRange;
use crate::word::Word;
use std::fmt::Debug;
use std::hash::Hash;

/// A range of a container.
pub type RangeOf<C> = <C as Container>::Range;

/// A key of a container.
pub type KeyOf<C> = <RangeOf<C> as KeyRange>::Key;

/// A range and its value, which are lent.
pub type Lent<'a, C> = (&'a RangeOf<C>, &'a <C as Container>::Value);

/// A range and its value.
pub type Pair<C> = (RangeOf<C>, <C as Container>::Value);

/// A map, or a set, each range of which has the value `()`. Its keys have any steps.
pub trait Container: Clone + Ord + Hash {
    type Range: KeyRange;
    type Value: Word;

    fn empty() -> Self;
    fn put(&mut self, range: Self::Range, value: Self::Value);
    fn cut(&mut self, range: Self::Range);
    fn forget(&mut self);
    fn count(&self) -> usize;
    fn has_none(&self) -> bool;
    fn first_pair(&self) -> Option<Lent<'_, Self>>;
    fn last_pair(&self) -> Option<Lent<'_, Self>>;
    fn find(&self, key: &KeyOf<Self>) -> Option<Lent<'_, Self>>;

    /// Refuses lookups of a key by other calls that don't say what `find` says.
    fn check_lookups(&self, key: &KeyOf<Self>) -> Result<(), Fault>;
    fn pairs(&self) -> impl DoubleEndedIterator<Item = Lent<'_, Self>>;
    fn meet<'a>(
        &'a self,
        query: &'a Self::Range,
    ) -> impl DoubleEndedIterator<Item = Lent<'a, Self>>;
    fn meets(&self, query: &Self::Range) -> bool;
    fn free<'a>(&'a self, outer: &'a Self::Range) -> impl Iterator<Item = Self::Range>;

    /// The pieces into which the ends of some ranges, each of which has a key, divide the keys from the
    /// first of them to the last, in order.
    fn pieces(ranges: &[Self::Range]) -> Vec<Self::Range>;

    /// Makes one of pairs, which are inserted in order.
    fn filled(pairs: Vec<Pair<Self>>) -> Self {
        let mut container = Self::empty();
        for (range, value) in pairs {
            container.put(range, value);
        }
        container
    }
}

/// A container whose keys have steps of their own, or none.
pub trait OwnSteps:
    Container + Debug + Default + Extend<Self::Item> + FromIterator<Self::Item>
{
    /// What the crate extends it by.
    type Item;

    fn item(pair: Pair<Self>) -> Self::Item;
    fn hand_over(self) -> impl DoubleEndedIterator<Item = Pair<Self>>;
}

/// A set.
pub trait Set: Container<Value = ()> {
    /// What it lends its ranges by.
    type Ranges<'a>: DoubleEndedIterator<Item = &'a Self::Range>
    where
        Self: 'a;

    fn ranges(&self) -> Self::Ranges<'_>;
    fn union_of<'a>(
        left: Self::Ranges<'a>,
        right: Self::Ranges<'a>,
    ) -> impl Iterator<Item = Self::Range>;
    fn intersection_of<'a>(
        left: Self::Ranges<'a>,
        right: Self::Ranges<'a>,
    ) -> impl Iterator<Item = Self::Range>;
    fn union_with<'a>(&'a self, other: &'a Self) -> impl Iterator<Item = Self::Range>;
    fn intersection_with<'a>(&'a self, other: &'a Self) -> impl Iterator<Item = Self::Range>;
}

/// A set whose keys have steps of their own, or none.
pub trait Operators: Set {
    fn or(&self, other: &Self) -> Self;
    fn and(&self, other: &Self) -> Self;
}

/// Refuses a container of which `len`, `is_empty`, `first`, `last` and `iter` don't say the same.
pub fn check_counts<C: Container>(container: &C) -> Result<(), Fault> {
    let count = container.pairs().count();
    same(container.count(), count, "len and iter")?;
    same(container.has_none(), count == 0, "is_empty and iter")?;
    same(
        container.first_pair(),
        container.pairs().next(),
        "first and iter",
    )?;
    same(
        container.last_pair(),
        container.pairs().next_back(),
        "last and iter",
    )
}
