//! Counting what a run of random inputs reaches.
#![forbid(unsafe_code)]

use std::collections::BTreeMap;

/// How often each key occurs.
pub fn tally<K: Ord>(keys: impl IntoIterator<Item = K>) -> BTreeMap<K, usize> {
    let mut counts = BTreeMap::new();
    keys.into_iter().for_each(|key| *counts.entry(key).or_default() += 1);
    counts
}
