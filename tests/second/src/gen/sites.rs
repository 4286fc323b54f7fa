//! Seeded settings.

use super::Rng;
use crate::book::length;
use crate::machine::site::{GREATEST, GREATEST_CAPACITY, HEAD, LIMITS};
use crate::machine::Settings;

/// What kind of site is wanted.
#[derive(Clone, Copy, Debug, PartialEq, Eq)]
pub enum Size {
    /// Every limit 1.
    One,
    /// A few of everything, so that lists fill it.
    Small,
    /// Small enough for a prover to compute.
    Table,
    /// Visitors and meetings where a pool word ends: 31, 32, 33, 64, 512 and 128.
    PoolEdge,
    /// One or two limits at their greatest, the others small.
    AtLimit,
    /// Any of the above, small ones mostly.
    Any,
}

/// Greatest limits of a small site and of a site for tables, in the order of rule 1.1.
const SMALL: [u32; LIMITS] = [5, 3, 4, 7, 5, 4, 3, 5, 4];
const TABLE: [u32; LIMITS] = [3, 3, 3, 5, 4, 3, 2, 3, 2];

pub fn site(rng: &mut Rng, size: Size) -> Settings {
    match size {
        Size::One => settings_of(rng, [1; LIMITS]),
        Size::Small => small(rng, SMALL),
        Size::Table => small(rng, TABLE),
        Size::PoolEdge => pool_edge(rng),
        Size::AtLimit => at_limit(rng),
        Size::Any => {
            let size = rng.pick(&[
                Size::Small,
                Size::Small,
                Size::Small,
                Size::Small,
                Size::Small,
                Size::PoolEdge,
                Size::AtLimit,
                Size::One,
            ]);
            site(rng, size)
        }
    }
}

/// A site whose book has at most so many words.
pub fn site_within(rng: &mut Rng, size: Size, most_words: u64) -> Settings {
    loop {
        let settings = site(rng, size);
        if length(&settings) <= most_words {
            return settings;
        }
    }
}

fn small(rng: &mut Rng, greatest: [u32; LIMITS]) -> Settings {
    let limits = greatest.map(|most| rng.between(most.div_ceil(2).min(2), most));
    settings_of(rng, limits)
}

fn pool_edge(rng: &mut Rng) -> Settings {
    let mut limits = SMALL.map(|most| rng.between(1, most.min(3)));
    limits[3] = rng.pick(&[31, 32, 33, 64, 512]);
    limits[4] = rng.pick(&[31, 32, 33, 64, 128]);
    settings_of(rng, limits)
}

fn at_limit(rng: &mut Rng) -> Settings {
    let mut limits = SMALL.map(|most| rng.between(1, most.min(3)));
    for _ in 0..rng.between(1, 2) {
        let which = rng.below(LIMITS as u32) as usize;
        limits[which] = GREATEST[which];
    }
    settings_of(rng, limits)
}

/// Settings of these limits. Early times of every number, both ends often. Small capacities, so that dining rooms
/// fill up, and now and then the greatest.
fn settings_of(rng: &mut Rng, limits: [u32; LIMITS]) -> Settings {
    let mut words = limits.to_vec();
    words.push(early(rng, limits[2]));
    for _ in 0..limits[6] {
        let capacity = if rng.percent(10) { GREATEST_CAPACITY } else { rng.between(1, 9) };
        words.push(capacity);
    }
    Settings::from_words(&words).expect("generated settings keep their ranges")
}

/// A number of early times: none, one, all but one of a date's, or any.
fn early(rng: &mut Rng, times_per_date: u32) -> u32 {
    match rng.below(4) {
        0 => 0,
        1 => 1.min(times_per_date - 1),
        2 => times_per_date - 1,
        _ => rng.below(times_per_date),
    }
}

/// Settings words that 24 refuses: a limit, the early times or a capacity out of range, or a wrong length, among them
/// one word less for want of the early times.
pub fn bad_settings(rng: &mut Rng) -> Vec<u32> {
    let mut words = site(rng, Size::Any).words();
    match rng.below(9) {
        0 => words.truncate(rng.below(words.len() as u32) as usize),
        1 => words.push(rng.between(1, 1000)),
        2 => words[6] += 1,
        3 => words[6] = rng.pick(&[0, 17, u32::MAX, 0xffff_fff7]),
        4 => {
            let which = rng.below(LIMITS as u32) as usize;
            words[which] = rng.pick(&[0, GREATEST[which] + 1, u32::MAX, 0x8000_0001]);
        }
        5 => words[LIMITS] = too_early(rng, words[2]),
        6 => (words[2], words[LIMITS]) = (0, rng.pick(&[0, 1, u32::MAX])),
        7 => drop(words.remove(LIMITS)),
        _ => {
            let which = rng.between(HEAD as u32, words.len() as u32 - 1) as usize;
            words[which] = rng.pick(&[0, GREATEST_CAPACITY + 1, u32::MAX]);
        }
    }
    words
}

/// The greatest limits, with so many early times.
pub fn largest(early: u32) -> Settings {
    let words = [&GREATEST[..], &[early], &[GREATEST_CAPACITY; 16]].concat();
    Settings::from_words(&words).expect("the greatest limits are in range")
}

/// A number of early times that a site with so many times a date cannot have.
pub fn too_early(rng: &mut Rng, times_per_date: u32) -> u32 {
    let more = [times_per_date, times_per_date, times_per_date + 1, 96, 97, 0x8000_0000, u32::MAX];
    rng.pick(&more).max(times_per_date)
}

/// Good settings whose book is over 16,384 words.
pub fn large_settings(rng: &mut Rng) -> Settings {
    loop {
        let limits = GREATEST.map(|most| rng.between(1, most));
        let settings = settings_of(rng, limits);
        if length(&settings) > crate::frames::MOST_WORDS {
            return settings;
        }
    }
}
