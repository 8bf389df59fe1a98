//! The sets of the Rust crate.

use crate::container::{Container, Lent, Operators, OwnSteps, Pair, Set};
use crate::fault::{same, Fault};
use crate::ranges::{closed_pieces, half_open_pieces};
use crate::word::Word;
use rangemap::{inclusive_set, set};
use rangemap::{RangeInclusiveSet, RangeSet, StepFns, StepLite};
use std::hash::Hash;
use std::ops::{Range, RangeInclusive};

/// The calls of either set, which have the same names.
macro_rules! set_calls {
    ($range:ty, $new:path, $pieces:expr) => {
        type Range = $range;
        type Value = ();

        fn empty() -> Self {
            $new()
        }

        fn put(&mut self, range: $range, _value: ()) {
            self.insert(range);
        }

        fn cut(&mut self, range: $range) {
            self.remove(range);
        }

        fn forget(&mut self) {
            self.clear();
        }

        fn count(&self) -> usize {
            self.len()
        }

        fn has_none(&self) -> bool {
            self.is_empty()
        }

        fn first_pair(&self) -> Option<Lent<'_, Self>> {
            self.first().map(|range| (range, &()))
        }

        fn last_pair(&self) -> Option<Lent<'_, Self>> {
            self.last().map(|range| (range, &()))
        }

        fn find(&self, key: &K) -> Option<Lent<'_, Self>> {
            self.get(key).map(|range| (range, &()))
        }

        fn check_lookups(&self, key: &K) -> Result<(), Fault> {
            let is_found = self.get(key).is_some();
            same(self.contains(key), is_found, "contains and get")
        }

        fn pairs(&self) -> impl DoubleEndedIterator<Item = Lent<'_, Self>> {
            self.iter().map(|range| (range, &()))
        }

        fn meet<'a>(
            &'a self,
            query: &'a $range,
        ) -> impl DoubleEndedIterator<Item = Lent<'a, Self>> {
            self.overlapping(query).map(|range| (range, &()))
        }

        fn meets(&self, query: &$range) -> bool {
            self.overlaps(query)
        }

        fn free<'a>(&'a self, outer: &'a $range) -> impl Iterator<Item = $range> {
            self.gaps(outer)
        }

        fn pieces(ranges: &[$range]) -> Vec<$range> {
            $pieces(ranges)
        }
    };
}

impl<K: Word> Container for RangeSet<K> {
    set_calls!(Range<K>, Self::new, half_open_pieces);
}

impl<K: Word, S: StepFns<K> + Clone + Ord + Hash> Container for RangeInclusiveSet<K, S> {
    set_calls!(
        RangeInclusive<K>,
        Self::new_with_step_fns,
        closed_pieces::<K, S>
    );
}

/// What two of either set make.
macro_rules! two_sets {
    ($range:ty, $of:ident) => {
        type Ranges<'a>
            = $of::Iter<'a, K>
        where
            Self: 'a;

        fn ranges(&self) -> Self::Ranges<'_> {
            self.iter()
        }

        fn union_of<'a>(
            left: Self::Ranges<'a>,
            right: Self::Ranges<'a>,
        ) -> impl Iterator<Item = $range> {
            $of::Union::new(left, right)
        }

        fn intersection_of<'a>(
            left: Self::Ranges<'a>,
            right: Self::Ranges<'a>,
        ) -> impl Iterator<Item = $range> {
            $of::Intersection::new(left, right)
        }

        fn union_with<'a>(&'a self, other: &'a Self) -> impl Iterator<Item = $range> {
            self.union(other)
        }

        fn intersection_with<'a>(&'a self, other: &'a Self) -> impl Iterator<Item = $range> {
            self.intersection(other)
        }
    };
}

impl<K: Word> Set for RangeSet<K> {
    two_sets!(Range<K>, set);
}

impl<K: Word, S: StepFns<K> + Clone + Ord + Hash + 'static> Set for RangeInclusiveSet<K, S> {
    two_sets!(RangeInclusive<K>, inclusive_set);
}

/// What either set does besides, where its keys have steps of their own.
macro_rules! own_set_calls {
    ($range:ty) => {
        type Item = $range;

        fn item(pair: Pair<Self>) -> $range {
            pair.0
        }

        fn hand_over(self) -> impl DoubleEndedIterator<Item = Pair<Self>> {
            self.into_iter().map(|range| (range, ()))
        }
    };
}

impl<K: Word> OwnSteps for RangeSet<K> {
    own_set_calls!(Range<K>);
}

impl<K: Word + StepLite> OwnSteps for RangeInclusiveSet<K> {
    own_set_calls!(RangeInclusive<K>);
}

impl<K: Word> Operators for RangeSet<K> {
    fn or(&self, other: &Self) -> Self {
        self | other
    }

    fn and(&self, other: &Self) -> Self {
        self & other
    }
}

impl<K: Word + StepLite> Operators for RangeInclusiveSet<K> {
    fn or(&self, other: &Self) -> Self {
        self | other
    }

    fn and(&self, other: &Self) -> Self {
        self & other
    }
}
