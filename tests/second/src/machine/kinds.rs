//! The table of kinds (docs/RULES.md, section 4): which fields a kind uses, and for what.

use super::site::Settings;

/// The kinds are 1..20.
pub const LAST_KIND: u32 = 20;

/// The kinds that change something, if only the count: 1..16 (rules 4.21 and 19.2). The others only ask.
pub fn changes_something(kind: u32) -> bool {
    (1..=16).contains(&kind)
}

/// What the number in a or b names.
#[derive(Clone, Copy, Debug, PartialEq, Eq)]
pub enum Thing {
    Visitor,
    Meeting,
    ConferenceRoom,
    DiningRoom,
    HotelRoom,
    Transport,
}

/// The unit of first and last.
#[derive(Clone, Copy, Debug, PartialEq, Eq)]
pub enum Unit {
    Dates,
    Sessions,
    Times,
}

/// One line of the table. Every kind uses first and last.
#[derive(Clone, Copy, Debug, PartialEq, Eq)]
pub struct Uses {
    pub a: Option<Thing>,
    pub b: Option<Thing>,
    pub unit: Unit,
    pub n: bool,
    pub info: bool,
    /// the kind takes one slot: first and last are equal (rule 4.23)
    pub one: bool,
}

impl Thing {
    pub fn limit(self, settings: &Settings) -> u32 {
        match self {
            Thing::Visitor => settings.visitors,
            Thing::Meeting => settings.meetings,
            Thing::ConferenceRoom => settings.conference_rooms,
            Thing::DiningRoom => settings.dining_rooms,
            Thing::HotelRoom => settings.hotel_rooms,
            Thing::Transport => settings.transports,
        }
    }
}

impl Unit {
    /// How many slots of the unit the site has.
    pub fn slots(self, settings: &Settings) -> u32 {
        match self {
            Unit::Dates => settings.dates,
            Unit::Sessions => settings.sessions(),
            Unit::Times => settings.times(),
        }
    }
}

/// A line of the table; None for a kind that is not in it.
pub fn uses(kind: u32) -> Option<Uses> {
    use Thing::*;
    use Unit::*;
    let line = |a, b, unit| Uses { a, b, unit, n: false, info: false, one: false };
    Some(match kind {
        1..=3 => line(None, Some(Visitor), Dates),
        4 | 5 => line(Some(HotelRoom), Some(Visitor), Dates),
        6 | 7 => line(Some(Transport), Some(Visitor), Times),
        8 | 9 => line(Some(Meeting), None, Sessions),
        10 | 11 => line(Some(Meeting), Some(Visitor), Sessions),
        12 => Uses { info: true, ..line(Some(ConferenceRoom), Some(Meeting), Sessions) },
        13 => line(None, Some(Meeting), Sessions),
        14 => Uses { n: true, info: true, ..line(Some(DiningRoom), Some(Meeting), Dates) },
        15 => line(Some(DiningRoom), Some(Meeting), Dates),
        16 => line(None, Some(Meeting), Sessions),
        17 => Uses { one: true, ..line(None, Some(Visitor), Sessions) },
        18 => Uses { one: true, ..line(None, None, Dates) },
        19 => Uses { one: true, ..line(Some(DiningRoom), None, Dates) },
        20 => line(None, None, Sessions),
        _ => return None,
    })
}
