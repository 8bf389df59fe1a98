//! The maps of the Rust crate.

use crate::container::{Container, Lent, OwnSteps, Pair};
use crate::fault::{same, Fault};
use crate::ranges::{closed_pieces, half_open_pieces};
use crate::word::Word;
use rangemap::{RangeInclusiveMap, RangeMap, StepFns, StepLite};
use std::ops::{Range, RangeInclusive};

/// The calls of either map, which have the same names.
macro_rules! map_calls {
    ($range:ty, $new:path, $pieces:expr) => {
        type Range = $range;
        type Value = V;

        fn empty() -> Self {
            $new()
        }

        fn put(&mut self, range: $range, value: V) {
            self.insert(range, value);
        }

        fn cut(&mut self, range: $range) {
            self.remove(range);
        }

        fn forget(&mut self) {
            self.clear();
        }

        fn count(&self) -> usize {
            self.len()
        }

        fn has_none(&self) -> bool {
            self.is_empty()
        }

        fn first_pair(&self) -> Option<Lent<'_, Self>> {
            self.first_range_value()
        }

        fn last_pair(&self) -> Option<Lent<'_, Self>> {
            self.last_range_value()
        }

        fn find(&self, key: &K) -> Option<Lent<'_, Self>> {
            self.get_key_value(key)
        }

        fn check_lookups(&self, key: &K) -> Result<(), Fault> {
            let found = self.get_key_value(key);
            let value = found.map(|(_, value)| value);
            same(self.get(key), value, "get and get_key_value")?;
            let is_found = self.contains_key(key);
            same(is_found, found.is_some(), "contains_key and get_key_value")
        }

        fn pairs(&self) -> impl DoubleEndedIterator<Item = Lent<'_, Self>> {
            self.iter()
        }

        fn meet<'a>(
            &'a self,
            query: &'a $range,
        ) -> impl DoubleEndedIterator<Item = Lent<'a, Self>> {
            self.overlapping(query)
        }

        fn meets(&self, query: &$range) -> bool {
            self.overlaps(query)
        }

        fn free<'a>(&'a self, outer: &'a $range) -> impl Iterator<Item = $range> {
            self.gaps(outer)
        }

        fn pieces(ranges: &[$range]) -> Vec<$range> {
            $pieces(ranges)
        }
    };
}

impl<K: Word, V: Word> Container for RangeMap<K, V> {
    map_calls!(Range<K>, Self::new, half_open_pieces);
}

impl<K: Word, V: Word, S: StepFns<K> + Clone> Container for RangeInclusiveMap<K, V, S> {
    map_calls!(
        RangeInclusive<K>,
        Self::new_with_step_fns,
        closed_pieces::<K, S>
    );
}

/// What either map does besides, where its keys have steps of their own.
macro_rules! own_map_calls {
    () => {
        type Item = Pair<Self>;

        fn item(pair: Pair<Self>) -> Pair<Self> {
            pair
        }

        fn hand_over(self) -> impl DoubleEndedIterator<Item = Pair<Self>> {
            self.into_iter()
        }
    };
}

impl<K: Word, V: Word> OwnSteps for RangeMap<K, V> {
    own_map_calls!();
}

impl<K: Word + StepLite, V: Word> OwnSteps for RangeInclusiveMap<K, V> {
    own_map_calls!();
}
