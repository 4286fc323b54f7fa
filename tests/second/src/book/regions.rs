//! Where the seven regions of a book lie (rules 8.1 to 8.3). Writing and reading walk the book in order and need no
//! addresses; these are for the length and for whoever wants to damage one cell.

use super::pool_words;
use crate::machine::Settings;

/// The regions in the order of the book.
#[derive(Clone, Copy, Debug, PartialEq, Eq, PartialOrd, Ord)]
pub enum Name {
    Leave,
    Hotel,
    Standing,
    Attend,
    Conf,
    Lunch,
    Ride,
}

/// A region: for each slot a row of items, each of `width` words.
#[derive(Clone, Copy, Debug, PartialEq, Eq)]
pub struct Region {
    pub name: Name,
    pub slots: u32,
    pub items: u32,
    pub width: u32,
}

impl Region {
    pub fn length(&self) -> u64 {
        u64::from(self.slots) * u64::from(self.items) * u64::from(self.width)
    }
}

pub fn regions(s: &Settings) -> [Region; 7] {
    let region = |name, slots, items, width| Region { name, slots, items, width };
    [
        region(Name::Leave, s.dates, pool_words(s.visitors), 1),
        region(Name::Hotel, s.dates, s.hotel_rooms, 1),
        region(Name::Standing, s.sessions(), pool_words(s.meetings), 1),
        region(Name::Attend, s.sessions(), s.visitors, 1),
        region(Name::Conf, s.sessions(), s.conference_rooms, 2),
        region(Name::Lunch, s.dates, s.meetings, 3),
        region(Name::Ride, s.times(), s.transports, 1),
    ]
}

/// The index of the first word of an item (rule 8.3).
pub fn address(s: &Settings, name: Name, slot: u32, item: u32) -> usize {
    let mut start = s.word_count() as u64;
    for region in regions(s) {
        if region.name == name {
            let cell = u64::from(slot) * u64::from(region.items) + u64::from(item);
            return (start + cell * u64::from(region.width)) as usize;
        }
        start += region.length();
    }
    unreachable!("every name has its region")
}
