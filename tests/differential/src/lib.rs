//! What the differential tests share: seeds, how long a run is, and counts of what was reached.
//!
//! SEED=N takes another seed, SCALE=N a run N times as long. Every test prints its seed.

pub mod calls;
pub mod guarded;
pub mod reached;

use std::collections::BTreeMap;
use std::fmt::Debug;

fn number(name: &str, usual: u64) -> u64 {
    match std::env::var(name) {
        Ok(word) => word.parse().unwrap_or_else(|_| panic!("{name} is no number: {word}")),
        Err(_) => usual,
    }
}

/// The seed of a test, each its own.
pub fn seed(test: u64) -> u64 {
    number("SEED", 20_261_115) + test
}

/// How many turns a test makes.
pub fn times(usual: usize) -> usize {
    usual * number("SCALE", 1) as usize
}

/// How often each key was seen.
pub struct Counts<Key> {
    seen: BTreeMap<Key, usize>,
}

impl<Key: Ord + Copy + Debug> Counts<Key> {
    pub fn new() -> Self {
        Counts { seen: BTreeMap::new() }
    }

    pub fn add(&mut self, key: Key) {
        *self.seen.entry(key).or_default() += 1;
    }

    pub fn of(&self, key: Key) -> usize {
        self.seen.get(&key).copied().unwrap_or(0)
    }

    pub fn total(&self) -> usize {
        self.seen.values().sum()
    }

    /// Each of the keys was seen at least so often.
    pub fn assert_each(&self, keys: impl IntoIterator<Item = Key>, least: usize) {
        for key in keys {
            assert!(self.of(key) >= least, "{key:?} was seen {} times, wanted {least}", self.of(key));
        }
    }
}

impl<Key: Ord + Copy + Debug> Default for Counts<Key> {
    fn default() -> Self {
        Counts::new()
    }
}

impl<Key: Debug> std::fmt::Display for Counts<Key> {
    fn fmt(&self, to: &mut std::fmt::Formatter) -> std::fmt::Result {
        let parts: Vec<String> = self.seen.iter().map(|(key, count)| format!("{key:?} {count}")).collect();
        to.write_str(&parts.join(", "))
    }
}
